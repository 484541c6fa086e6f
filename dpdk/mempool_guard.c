/* mempool_guard.c - a mempool handler for DPDK over the guarded pool of libmbufpool_c.a, which
 * refuses what is put and isn't out, and says who put it before, and who got it.
 *
 *     rte_mempool_set_ops_byname(mp, "mbufpool_guard", NULL),
 *     or --mbuf-pool-ops-name=mbufpool_guard for mbuf pools
 *
 * Each enabled lcore has a worker of its own, with a list of what it keeps, by which it gets and puts
 * without a lock; threads that are no such lcores share one worker under a spinlock. What an application
 * puts may be anything: the library takes what is out, and tells what isn't. An element that rests in a
 * worker's list it can't tell from one that is out with that worker: where another puts it, it takes it from
 * there, so that it is in the pool once, and the worker finds that out when it next meets it. So who put
 * and who got an element last stands in a plain table, and a put looks there first: what was
 * put last is refused at once. Where two put within some nanoseconds, the library has the last word, and
 * what a worker finds late is told then.
 *
 * The caches are within, so a mempool of this handler is made with a cache of 0: an object that is
 * freed twice into a mempool's own cache is given out twice from there, and seen here later.
 *
 * An element's number is its object's in rte_mempool_obj_iter().
 *
 * This file has the usual way; guard_apart.c what it leaves, guard_open.c how a mempool is made and filled,
 * guard_way.c the places in the code, guard_log.c and guard_report.c what is told.
 *
 * Limits: some 8,000,000 objects (65,534 magazines of the library), 64 chunks of memory, and the primary
 * process (one_process.h). */
#ifndef _GNU_SOURCE
#define _GNU_SOURCE
#endif
#include <errno.h>

#include "guard_steps.h"
#include "mempool_guard.h"
#include "one_process.h"

#define LOOK_AFTER 64 /* elements that a worker put, or got: it has as many in store that it found late */

/* ---- the usual way ----
 *
 * What is put or got is counted before the call, and little is kept over it, so that few registers are
 * saved: what is left to do when it is refused looks all up again. Lists are apart from single objects for
 * the same reason. */

/* The user that a call counts for, or NULL where there is none, or no pool yet. */
static __rte_always_inline struct guard_user *
usual_user(const struct rte_mempool *mp)
{
	return likely(mp->pool_data != NULL) ? own_user(mp->pool_data) : NULL;
}

/* Whether a worker is asked for what it found late, as it puts or gets so many. */
static __rte_always_inline int
is_asked(const uint64_t *count, uint64_t n)
{
	return n == 1 ? *count % LOOK_AFTER == 0 : (*count ^ (*count + n)) >= LOOK_AFTER;
}

/* Finds the elements of a list and notes that they are put, as far as they are out. Says how many are. */
static __rte_noinline unsigned int
note_puts(struct guard_pool *p, void *const *objects, unsigned int n, uint32_t *list, caller by)
{
	const struct finder f = finder_of(p);
	struct past *const pasts = p->pasts;
	unsigned int i;

	for (i = 0; i < n; i++)
		if (unlikely(!find_element(p, &f, objects[i], &list[i])) ||
			unlikely(!note_put(&pasts[list[i]], by)))
			break;
	return i;
}

static __rte_noinline int
enqueue_list(struct rte_mempool *mp, void *const *objects, unsigned int n, const void *at)
{
	struct guard_user *own = usual_user(mp);
	struct guard_pool *p = mp->pool_data;
	uint32_t list[BURST], cause;
	unsigned int k, noted;
	uint64_t taken = 0;
	int err = 0;

	if (unlikely(own == NULL))
		return guard_enqueue(p, objects, n, at);
	if (unlikely(own->put.at != at))
		guard_look_up_putter(&own->put, at);
	if (unlikely(is_asked(&own->puts, n)))
		guard_tell_late(p, own);
	while (n > 0) {
		k = RTE_MIN(n, (unsigned int)BURST);
		noted = note_puts(p, objects, k, list, own->put.noted.put);
		add(&own->puts, noted);
		cause = mbufpool_guard_put(&own->guard, list, noted, &taken);
		if (unlikely(cause != 0) && guard_put_counted(p, list + taken, noted - taken, cause) != 0)
			err = -ENOBUFS;
		if (unlikely(noted < k) && guard_put_own(p, objects[noted++]) != 0)
			err = -ENOBUFS;
		objects += noted;
		n -= noted;
	}
	return err;
}

static __rte_noinline int
dequeue_list(struct rte_mempool *mp, void **objects, unsigned int n, const void *at)
{
	struct guard_user *own = usual_user(mp);
	struct guard_pool *p = mp->pool_data;
	uint32_t list[BURST], cause;
	void *const *all;
	struct past *pasts, now;
	unsigned int i;

	if (unlikely(own == NULL))
		return guard_dequeue(p, objects, n, at);
	if (unlikely(own->get.at != at))
		guard_look_up_getter(&own->get, at);
	if (unlikely(is_asked(&own->gets, n)))
		guard_tell_late(p, own);
	if (unlikely(n > BURST))
		return guard_get(p, objects, n, own->get.noted.got);
	add(&own->gets, n);
	cause = mbufpool_guard_get(&own->guard, list, n);
	if (unlikely(cause != 0))
		return guard_get_counted(p, objects, n, cause);
	all = p->objects;
	pasts = p->pasts;
	now = own->get.noted;
	for (i = 0; i < n; i++) {
		note_got(&pasts[list[i]], now);
		objects[i] = all[list[i]];
	}
	return 0;
}

/* ---- one object ---- */

/* Notes an element that the last caller puts, and puts it. */
static __rte_always_inline int
put_element(struct guard_pool *p, struct guard_user *own, void *const *objects, uint32_t element)
{
	uint32_t cause;

	if (unlikely(!note_put(&p->pasts[element], own->put.noted.put)))
		return guard_put_own(p, objects[0]);
	add(&own->puts, 1);
	cause = mbufpool_guard_put_one(&own->guard, element);
	return likely(cause == 0) ? 0 : guard_put_counted_one(p, objects[0], cause);
}

/* Of an object beyond the first chunk, or of none. */
static __rte_noinline int
put_beyond(struct guard_pool *p, struct guard_user *own, void *const *objects)
{
	uint32_t element = guard_element(p, objects[0]);

	return element == NO_PLACE ? guard_put_own(p, objects[0]) : put_element(p, own, objects, element);
}

static __rte_always_inline int
put_one(struct guard_pool *p, struct guard_user *own, void *const *objects)
{
	const struct finder f = finder_of(p);
	uint32_t element;

	if (unlikely(!is_in_first(&f, objects[0])))
		return put_beyond(p, own, objects);
	if (unlikely(!find_in_first(&f, objects[0], &element)))
		return guard_put_own(p, objects[0]);
	return put_element(p, own, objects, element);
}

static __rte_always_inline int
get_one(struct guard_pool *p, struct guard_user *own, void **objects)
{
	uint32_t element, got, cause;

	add(&own->gets, 1);
	cause = mbufpool_guard_get_one(&own->guard, &element);
	if (unlikely(cause != 0))
		return guard_get_counted(p, objects, 1, cause);
	got = element;
	note_got(&p->pasts[got], own->get.noted);
	objects[0] = p->objects[got];
	return 0;
}

/* The same for another caller than the last, or where the worker is asked. */
static __rte_noinline int
put_one_anew(struct guard_pool *p, struct guard_user *own, void *const *objects, const void *at)
{
	guard_look_up_putter(&own->put, at);
	if (is_asked(&own->puts, 1))
		guard_tell_late(p, own);
	return put_one(p, own, objects);
}

static __rte_noinline int
get_one_anew(struct guard_pool *p, struct guard_user *own, void **objects, const void *at)
{
	guard_look_up_getter(&own->get, at);
	if (is_asked(&own->gets, 1))
		guard_tell_late(p, own);
	return get_one(p, own, objects);
}

/* Each of these two is a function of its own, so that it returns into the code that gets and puts: that of
 * DPDK's calls is in line there. */
static int
handler_enqueue(struct rte_mempool *mp, void *const *objects, unsigned int n)
{
	const void *at = __builtin_return_address(0);
	struct guard_user *own;

	if (n != 1)
		return enqueue_list(mp, objects, n, at);
	own = usual_user(mp);
	if (unlikely(own == NULL))
		return guard_enqueue(mp->pool_data, objects, 1, at);
	if (unlikely(own->put.at != at) || unlikely(is_asked(&own->puts, 1)))
		return put_one_anew(mp->pool_data, own, objects, at);
	return put_one(mp->pool_data, own, objects);
}

static int
handler_dequeue(struct rte_mempool *mp, void **objects, unsigned int n)
{
	const void *at = __builtin_return_address(0);
	struct guard_user *own;

	if (n != 1)
		return dequeue_list(mp, objects, n, at);
	own = usual_user(mp);
	if (unlikely(own == NULL))
		return guard_dequeue(mp->pool_data, objects, 1, at);
	if (unlikely(own->get.at != at) || unlikely(is_asked(&own->gets, 1)))
		return get_one_anew(mp->pool_data, own, objects, at);
	return get_one(mp->pool_data, own, objects);
}

static int64_t
in_by(const struct guard_user *u)
{
	return read_now(&u->puts) - read_now(&u->gets);
}

/* All elements, and what all users have put less what they got. (where others get and put meanwhile, the
 * sum may be of no one moment: but never below 0 or above all; what is found late counts until then) */
static unsigned int
handler_get_count(const struct rte_mempool *mp)
{
	const struct guard_pool *p = mp->pool_data;
	unsigned int lcore;
	int64_t in;

	if (p == NULL)
		return 0;
	in = p->places.all + in_by(&p->shared);
	for (lcore = 0; lcore < RTE_MAX_LCORE; lcore++)
		in += in_by(&p->lcores[lcore]);
	return in < 0 ? 0 : RTE_MIN((uint64_t)in, (uint64_t)p->known);
}

/* ---- the handler's table: each call is refused to a secondary process ---- */

static int
handler_alloc(struct rte_mempool *mp)
{
	int err;

	if (is_of_primary_alone(mp))
		return -ENOTSUP;
	err = guard_make(mp);
	if (err == 0)
		set_calls(mp, handler_enqueue, handler_dequeue, handler_get_count);
	return err;
}

/* (a mempool that never had objects has no pool) */
static void
handler_free(struct rte_mempool *mp)
{
	if (mp->pool_data != NULL && !is_of_primary_alone(mp))
		guard_free(mp);
}

static int
handler_populate(struct rte_mempool *mp, unsigned int max_objs, void *vaddr, rte_iova_t iova,
	size_t len, rte_mempool_populate_obj_cb_t *obj_cb, void *obj_cb_arg)
{
	if (is_of_primary_alone(mp))
		return -ENOTSUP;
	return guard_populate(mp, max_objs, vaddr, iova, len, obj_cb, obj_cb_arg);
}

static struct rte_mempool_ops guard_ops = {
	.name = MBUFPOOL_GUARD_OPS,
	.alloc = handler_alloc,
	.free = handler_free,
	.enqueue = put_unmade,
	.dequeue = get_unmade,
	.get_count = count_unmade,
	.populate = handler_populate,
};

#ifdef MBUFPOOL_PLUGIN
#include "registering.h"

static void
register_guard(void *arg)
{
	RTE_SET_USED(arg);
	register_handler(&guard_ops);
}

REGISTERED_BY(register_guard, MBUFPOOL_GUARD_OPS)
#else
RTE_MEMPOOL_REGISTER_OPS(guard_ops)
#endif
