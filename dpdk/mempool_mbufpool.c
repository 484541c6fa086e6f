/* mempool_mbufpool.c - a mempool handler for DPDK over the pools of values of libmbufpool_c.a.
 *
 *     rte_mempool_set_ops_byname(mp, "mbufpool", NULL),
 *     or --mbuf-pool-ops-name=mbufpool for mbuf pools
 *
 * A value of the pool is an object's address. Each enabled lcore is a worker, which gets from and puts
 * into magazines of its own, and exchanges one at the pool's depot, without a lock, when both of its own
 * are empty or full. Threads that are no such lcores are one worker together, under a lock. The pool asks
 * of a put that each object was got from it, by whichever thread, and not put since: an application keeps
 * that where it frees no object twice. An object may pass from lcore to lcore in between.
 *
 * What is in an lcore's magazines no other can get, as with a mempool's cache: so it needs none. That is
 * 256 objects at most, and in all lcores' together no more than half of the mempool's. Where that would
 * be fewer than 16 for each, nothing stays there.
 *
 * A put that the pool refuses for good is kept in a list of the mempool, under the lock, and got from
 * there. No application comes to that which puts only what it got, before a stack of magazines has been
 * changed 2^48 - 1 times.
 *
 * Built as a shared object, it is loaded by EAL's -d (from a folder that others can't write).
 *
 * Limits: some 8,000,000 objects (65,534 magazines), and the primary process (one_process.h). */
#ifndef _GNU_SOURCE
#define _GNU_SOURCE
#endif
#include <errno.h>
#include <stdlib.h>
#include <string.h>

#include <rte_branch_prediction.h>
#include <rte_lcore.h>
#include <rte_log.h>
#include <rte_malloc.h>
#include <rte_mempool.h>
#include <rte_pause.h>
#include <rte_spinlock.h>

#include "library_causes.h"
#include "mbufpool.h"
#include "one_process.h"
#include "pool_magazines.h"

#define TRIES 1000000

/* (two cache lines, as the processor fetches pairs of them) */
struct user {
	struct mbufpool_pool pool;
	uint64_t in; /* what it put less what it got, modulo 2^64: written by the user alone */
	/* where its last call was refused: its list, how many objects that has, and the pool */
	uintptr_t list;
	unsigned int n;
	struct pool *of;
} __rte_aligned(2 * RTE_CACHE_LINE_SIZE);

struct pool {
	struct pool_magazines magazines; /* first, for readers; with what is kept, under the lock */
	const char *name;		 /* the mempool's */
	uint32_t size;
	int is_fault_told, is_keeping_told;
	rte_spinlock_t lock;		  /* of the shared user, and of what is kept */
	struct user shared;		  /* of all threads that aren't enabled lcores */
	struct user lcores[RTE_MAX_LCORE]; /* those of lcores that aren't enabled have no worker */
};

/* ---- what is logged ---- */

#define OF_NO_MAGAZINE "more was put than was got: look for what is freed twice, by mbufpool_guard"

/* Logs once for each pool that a get was refused for another cause than that objects are out. */
static __rte_cold __rte_noinline void
log_refused(struct pool *p, uint32_t cause)
{
	const struct cause_text text = text_of_cause(cause, OF_NO_MAGAZINE);

	if (cause == MBUFPOOL_NO_ENTRIES ||
		__atomic_exchange_n(&p->is_fault_told, 1, __ATOMIC_RELAXED))
		return;
	RTE_LOG(CRIT, MEMPOOL, "mbufpool: mempool %s refused a get: %u, %s: %s\n", p->name, cause,
		text.name, text.advice);
}

/* Logs once for each pool that it keeps what its magazines have no room for. */
static __rte_cold __rte_noinline void
log_kept(struct pool *p, uint32_t cause)
{
	const struct cause_text text = text_of_cause(cause, OF_NO_MAGAZINE);

	if (__atomic_exchange_n(&p->is_keeping_told, 1, __ATOMIC_RELAXED))
		return;
	RTE_LOG(CRIT, MEMPOOL, "mbufpool: mempool %s keeps objects that its pool refused: %u, %s: they "
		"are available, under a lock: %s\n", p->name, cause, text.name, text.advice);
}

/* (more was put than the mempool has objects, and as much of it is kept) */
static __rte_cold __rte_noinline void
log_too_many(struct pool *p, unsigned int n)
{
	RTE_LOG(ERR, MEMPOOL, "mbufpool: mempool %s has all of its objects and more: %u objects refused\n",
		p->name, n);
}

/* ---- what the usual way leaves: no lcore, lost exchanges, and what is kept ---- */

/* Adds to what a user has put, modulo 2^64. */
static __rte_always_inline void
count(struct user *u, uint64_t n)
{
	__atomic_store_n(&u->in, u->in + n, __ATOMIC_RELAXED);
}

/* Gets or puts by a user, until the exchanges are won. */
static uint32_t
get_until_won(struct user *u, uint64_t *out, unsigned int n)
{
	uint32_t cause;

	while ((cause = mbufpool_pool_get(&u->pool, out, n)) == MBUFPOOL_CONTENDED)
		rte_pause();
	return cause;
}

static uint32_t
put_until_won(struct user *u, const uint64_t *list, unsigned int n)
{
	uint32_t cause;

	while ((cause = mbufpool_pool_put(&u->pool, list, n)) == MBUFPOOL_CONTENDED)
		rte_pause();
	return cause;
}

/* Gets by the thread's own worker, where it has one (`own` may be NULL), else by the shared one. */
static uint32_t
get_by_either(struct pool *p, struct user *own, uint64_t *out, unsigned int n)
{
	uint32_t cause = own == NULL ? MBUFPOOL_STRANGER : get_until_won(own, out, n);

	if (cause == MBUFPOOL_STRANGER) {
		rte_spinlock_lock(&p->lock);
		cause = get_until_won(&p->shared, out, n);
		rte_spinlock_unlock(&p->lock);
	}
	return cause;
}

static uint32_t
put_by_either(struct pool *p, struct user *own, const uint64_t *list, unsigned int n)
{
	uint32_t cause = own == NULL ? MBUFPOOL_STRANGER : put_until_won(own, list, n);

	if (cause == MBUFPOOL_STRANGER) {
		rte_spinlock_lock(&p->lock);
		cause = put_until_won(&p->shared, list, n);
		rte_spinlock_unlock(&p->lock);
	}
	return cause;
}

static uint64_t *
list_of_kept(struct pool *p)
{
	return (uint64_t *)(uintptr_t)p->magazines.kept;
}

/* (under the lock; read without it) */
static void
set_nb_kept(struct pool *p, uint64_t n)
{
	__atomic_store_n(&p->magazines.nb_kept, n, __ATOMIC_RELEASE);
}

/* Keeps a list that was refused. Says whether there was room for it. */
static int
keep(struct pool *p, const uint64_t *list, unsigned int n)
{
	int has_room;

	rte_spinlock_lock(&p->lock);
	has_room = n <= p->size - p->magazines.nb_kept;
	if (has_room) {
		memcpy(list_of_kept(p) + p->magazines.nb_kept, list, n * sizeof(*list));
		set_nb_kept(p, p->magazines.nb_kept + n);
	}
	rte_spinlock_unlock(&p->lock);
	return has_room;
}

/* Takes up to n objects of those that are kept, and tells how many. */
static unsigned int
take_kept(struct pool *p, uint64_t *out, unsigned int n)
{
	unsigned int k;

	if (likely(__atomic_load_n(&p->magazines.nb_kept, __ATOMIC_RELAXED) == 0))
		return 0;
	rte_spinlock_lock(&p->lock);
	k = RTE_MIN((uint64_t)n, p->magazines.nb_kept);
	set_nb_kept(p, p->magazines.nb_kept - k);
	memcpy(out, list_of_kept(p) + p->magazines.nb_kept, k * sizeof(*out));
	rte_spinlock_unlock(&p->lock);
	return k;
}

/* Gets a list from the pool, or some of it from what is kept, and the rest from the pool. */
static uint32_t
get_any(struct pool *p, struct user *own, uint64_t *out, unsigned int n)
{
	uint32_t cause = get_by_either(p, own, out, n);
	unsigned int k = cause == 0 ? 0 : take_kept(p, out, n);

	if (k > 0)
		cause = k == n ? 0 : get_by_either(p, own, out + k, n - k);
	if (cause != 0 && k > 0)
		keep(p, out, k);
	return cause;
}

/* Counts what a thread has put, in its lcore's own count or, without one, in the shared one. */
static void
count_for(struct pool *p, struct user *own, uint64_t n)
{
	if (own != NULL) {
		count(own, n);
		return;
	}
	rte_spinlock_lock(&p->lock);
	count(&p->shared, n);
	rte_spinlock_unlock(&p->lock);
}

/* The user of an lcore, whether it is enabled or not; NULL for a thread without one. */
static __rte_always_inline struct user *
own_user(struct pool *p)
{
	const unsigned int lcore = rte_lcore_id();

	return likely(lcore < RTE_MAX_LCORE) ? &p->lcores[lcore] : NULL;
}

static __rte_cold __rte_noinline int
get_apart(struct pool *p, struct user *own, uint64_t *out, unsigned int n)
{
	const uint32_t cause = get_any(p, own, out, n);

	if (cause == 0) {
		count_for(p, own, -(uint64_t)n);
		return 0;
	}
	log_refused(p, cause);
	return -ENOBUFS;
}

/* (DPDK's callers don't look at what a put answers) */
static __rte_cold __rte_noinline int
put_apart(struct pool *p, struct user *own, const uint64_t *list, unsigned int n)
{
	const uint32_t cause = put_by_either(p, own, list, n);

	if (cause != 0) {
		log_kept(p, cause);
		if (!keep(p, list, n)) {
			log_too_many(p, n);
			return -ENOBUFS;
		}
	}
	count_for(p, own, n);
	return 0;
}

/* A call of a thread without an lcore, or by a mempool that has no pool yet. */
static __rte_cold __rte_noinline int
get_without_user(struct rte_mempool *mp, void **objects, unsigned int n)
{
	struct pool *p = mp->pool_data;

	return p == NULL ? -ENOBUFS : get_apart(p, NULL, (uint64_t *)(uintptr_t)objects, n);
}

static __rte_cold __rte_noinline int
put_without_user(struct rte_mempool *mp, void *const *objects, unsigned int n)
{
	struct pool *p = mp->pool_data;

	return p == NULL ? -ENOBUFS : put_apart(p, NULL, (const uint64_t *)(uintptr_t)objects, n);
}

/* A call of a user that has counted it, and of which nothing came. */
static __rte_cold __rte_noinline int
get_refused(struct user *own, unsigned int n)
{
	count(own, n);
	return get_apart(own->of, own, (uint64_t *)own->list, n);
}

static __rte_cold __rte_noinline int
put_refused(struct user *own, unsigned int n)
{
	count(own, -(uint64_t)n);
	return put_apart(own->of, own, (const uint64_t *)own->list, n);
}

/* ---- the usual way ----
 *
 * What is put or got is counted before the call. The user alone is kept over it, so that few registers are
 * saved: what is left to do where it is refused finds its list there. Lists and single objects are apart
 * from the beginning, before any register is saved. */

/* The user that a call counts for, or NULL where there is none, or no pool yet. */
static __rte_always_inline struct user *
usual_user(const struct rte_mempool *mp)
{
	return likely(mp->pool_data != NULL) ? own_user(mp->pool_data) : NULL;
}

/* Begins a call: what it puts is counted, and where its list is. The user is told, whose address the
 * compiler computes once so. */
static __rte_always_inline struct user *
begun(struct user *own, const void *list, uint64_t n)
{
	__asm__("" : "+r"(own));
	own->list = (uintptr_t)list;
	count(own, n);
	return own;
}

static __rte_noinline int
enqueue_list(struct rte_mempool *mp, void *const *objects, unsigned int n)
{
	struct user *own = usual_user(mp);

	if (unlikely(own == NULL))
		return put_without_user(mp, objects, n);
	own = begun(own, objects, n);
	own->n = n;
	if (likely(mbufpool_pool_put(&own->pool, (const uint64_t *)(uintptr_t)objects, n) == 0))
		return 0;
	return put_refused(own, own->n);
}

static __rte_noinline int
dequeue_list(struct rte_mempool *mp, void **objects, unsigned int n)
{
	struct user *own = usual_user(mp);

	if (unlikely(own == NULL))
		return get_without_user(mp, objects, n);
	own = begun(own, objects, -(uint64_t)n);
	own->n = n;
	if (likely(mbufpool_pool_get(&own->pool, (uint64_t *)(uintptr_t)objects, n) == 0))
		return 0;
	return get_refused(own, own->n);
}

static int
handler_enqueue(struct rte_mempool *mp, void *const *objects, unsigned int n)
{
	struct user *own;

	if (n != 1)
		return enqueue_list(mp, objects, n);
	own = usual_user(mp);
	if (unlikely(own == NULL))
		return put_without_user(mp, objects, 1);
	own = begun(own, objects, 1);
	if (likely(mbufpool_pool_put_one(&own->pool, (uintptr_t)objects[0]) == 0))
		return 0;
	return put_refused(own, 1);
}

static int
handler_dequeue(struct rte_mempool *mp, void **objects, unsigned int n)
{
	struct user *own;

	if (n != 1)
		return dequeue_list(mp, objects, n);
	own = usual_user(mp);
	if (unlikely(own == NULL))
		return get_without_user(mp, objects, 1);
	own = begun(own, objects, -UINT64_C(1));
	if (likely(mbufpool_pool_get_one(&own->pool, (uint64_t *)(uintptr_t)objects) == 0))
		return 0;
	return get_refused(own, 1);
}

/* What all users have put less what they got. (where others get and put meanwhile, the sum may be of no
 * one moment: but never below 0 or above all) */
static unsigned int
handler_get_count(const struct rte_mempool *mp)
{
	const struct pool *p = mp->pool_data;
	unsigned int lcore;
	int64_t in;

	if (p == NULL)
		return 0;
	in = __atomic_load_n(&p->shared.in, __ATOMIC_RELAXED);
	for (lcore = 0; lcore < RTE_MAX_LCORE; lcore++)
		in += __atomic_load_n(&p->lcores[lcore].in, __ATOMIC_RELAXED);
	return in < 0 ? 0 : RTE_MIN((uint64_t)in, (uint64_t)mp->size);
}

/* ---- the life of a pool ---- */

static void
end_pool(struct pool *p)
{
	unsigned int lcore;

	for (lcore = 0; lcore < RTE_MAX_LCORE; lcore++)
		mbufpool_pool_end(&p->lcores[lcore].pool);
	mbufpool_pool_end(&p->shared.pool);
	free(list_of_kept(p));
	rte_free(p);
}

/* Opens the library's pool, with a worker for each enabled lcore and one for all other threads. */
static uint32_t
open_workers(struct pool *p)
{
	unsigned int workers = 1, lcore;
	uint32_t cause;

	for (lcore = 0; lcore < RTE_MAX_LCORE; lcore++)
		p->lcores[lcore].of = p;
	RTE_LCORE_FOREACH (lcore)
		workers++;
	cause = mbufpool_pool_open(p->size, workers, TRIES, &p->shared.pool);
	RTE_LCORE_FOREACH (lcore)
		if (cause == 0)
			cause = mbufpool_pool_split(&p->shared.pool, &p->lcores[lcore].pool);
	return cause;
}

/* Says where the magazines are, and makes the list of what is kept. */
static int
open_magazines(struct pool *p)
{
	struct pool_magazines *of = &p->magazines;

	of->kept = (uintptr_t)calloc((size_t)p->size + 1, sizeof(uint64_t));
	if (of->kept == 0 ||
		mbufpool_pool_magazines(&p->shared.pool, &of->address, &of->count, &of->bytes) != 0)
		return -ENOMEM;
	of->magic = MAGAZINES_MAGIC;
	return 0;
}

static int
open_pool(struct pool *p)
{
	const uint32_t cause = open_workers(p);

	if (cause == MBUFPOOL_BAD_POOL) {
		RTE_LOG(ERR, MEMPOOL, "mbufpool: mempool %s: %u objects are more than a pool can have\n",
			p->name, p->size);
		return -EINVAL;
	}
	return cause != 0 ? -ENOMEM : open_magazines(p);
}

static int
handler_alloc(struct rte_mempool *mp)
{
	struct pool *p;
	int err;

	RTE_BUILD_BUG_ON(sizeof(void *) != sizeof(uint64_t));
	if (is_of_primary_alone(mp))
		return -ENOTSUP;
	p = rte_zmalloc_socket("mbufpool", sizeof(*p), 2 * RTE_CACHE_LINE_SIZE, mp->socket_id);
	if (p == NULL)
		return -ENOMEM;
	p->name = mp->name;
	p->size = mp->size;
	rte_spinlock_init(&p->lock);
	err = open_pool(p);
	if (err != 0) {
		end_pool(p);
		return err;
	}
	mp->pool_data = p;
	set_calls(mp, handler_enqueue, handler_dequeue, handler_get_count);
	return 0;
}

/* (a mempool that never had objects has no pool) */
static void
handler_free(struct rte_mempool *mp)
{
	struct pool *p = mp->pool_data;

	if (p == NULL || is_of_primary_alone(mp))
		return;
	mp->pool_data = NULL;
	end_pool(p);
}

/* Gives what is in a user's magazines to the depot, where each lcore can get it. */
static void
flush(struct user *u)
{
	while (mbufpool_pool_flush(&u->pool) == MBUFPOOL_CONTENDED)
		rte_pause();
}

/* A memory chunk is to be filled with objects. In the end none of them are this thread's alone. */
static int
handler_populate(struct rte_mempool *mp, unsigned int max_objs, void *vaddr, rte_iova_t iova,
	size_t len, rte_mempool_populate_obj_cb_t *obj_cb, void *obj_cb_arg)
{
	struct pool *p = mp->pool_data;
	struct user *own;
	int populated;

	if (is_of_primary_alone(mp))
		return -ENOTSUP;
	populated = rte_mempool_op_populate_default(
		mp, max_objs, vaddr, iova, len, obj_cb, obj_cb_arg);
	own = own_user(p);
	if (own != NULL)
		flush(own);
	rte_spinlock_lock(&p->lock);
	flush(&p->shared);
	rte_spinlock_unlock(&p->lock);
	return populated;
}

static struct rte_mempool_ops mbufpool_ops = {
	.name = "mbufpool",
	.alloc = handler_alloc,
	.free = handler_free,
	.enqueue = put_unmade,
	.dequeue = get_unmade,
	.get_count = count_unmade,
	.populate = handler_populate,
};

#ifdef MBUFPOOL_PLUGIN
#include "registering.h"

static void
register_mbufpool(void *arg)
{
	RTE_SET_USED(arg);
	register_handler(&mbufpool_ops);
}

REGISTERED_BY(register_mbufpool, "mbufpool")
#else
RTE_MEMPOOL_REGISTER_OPS(mbufpool_ops);
#endif
