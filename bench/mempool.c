/* mempool.c - DPDK's mempool, and packets of it, on whichever handler the subject is named by. */
#include <stdlib.h>
#include <string.h>

#include <rte_errno.h>
#include <rte_lcore.h>
#include <rte_mbuf.h>
#include <rte_mempool.h>

#include "rounds.h"

#define OBJECT 64 /* bytes of an object that is no mbuf; the first 4 are a check's mark */
#define MARK RTE_ALIGN(sizeof(uint32_t), RTE_MBUF_PRIV_ALIGN)

struct mempool_user {
	struct rte_mempool *mp;
	struct rte_mbuf *source; /* what is cloned */
	unsigned int segments;	 /* how many it is to have, 0: there is none */
};

struct mempool_pool {
	struct rte_mempool *mp;
	struct mempool_user user[MOST_THREADS];
};

/* ---- elements ---- */

static __rte_always_inline bool
get_objects(void *user, union refs *refs, unsigned int n)
{
	const struct mempool_user *u = user;

	return rte_mempool_get_bulk(u->mp, refs->object, n) == 0;
}

static __rte_always_inline bool
put_objects(void *user, const union refs *refs, unsigned int n)
{
	const struct mempool_user *u = user;

	rte_mempool_put_bulk(u->mp, refs->object, n);
	return true;
}

static uint32_t *
mark_object(void *user, const union refs *refs, unsigned int i, unsigned int segment)
{
	(void)user;
	return segment == 0 ? refs->object[i] : NULL;
}

/* ---- packets ---- */

static __rte_always_inline bool
alloc_mbuf(void *user, union refs *refs, unsigned int i)
{
	const struct mempool_user *u = user;

	return (refs->mbuf[i] = rte_pktmbuf_alloc(u->mp)) != NULL;
}

static __rte_always_inline bool
alloc_mbufs(void *user, union refs *refs, unsigned int n)
{
	const struct mempool_user *u = user;

	return rte_pktmbuf_alloc_bulk(u->mp, refs->mbuf, n) == 0;
}

static __rte_always_inline void
free_mbuf(void *user, const union refs *refs, unsigned int i)
{
	(void)user;
	rte_pktmbuf_free(refs->mbuf[i]);
}

static __rte_always_inline bool
clone_mbuf(void *user, union refs *refs)
{
	const struct mempool_user *u = user;

	return (refs->mbuf[0] = rte_pktmbuf_clone(u->source, u->mp)) != NULL;
}

static __rte_always_inline void
send_mbufs(void *user, union refs *refs, unsigned int n)
{
	(void)user;
	send_pointers(refs, n);
}

static __rte_always_inline bool
receive_mbufs(void *user, union refs *refs, unsigned int n)
{
	(void)user;
	return receive_pointers(refs, n);
}

/* Makes the packet that is cloned, with a byte in each of its segments. */
static bool
make_source(void *user)
{
	struct mempool_user *u = user;
	struct rte_mbuf *tail;
	unsigned int i;

	for (i = 0; i < u->segments; i++) {
		tail = rte_pktmbuf_alloc(u->mp);
		if (tail == NULL || rte_pktmbuf_append(tail, 1) == NULL)
			return false;
		if (u->source == NULL)
			u->source = tail;
		else if (rte_pktmbuf_chain(u->source, tail) != 0)
			return false;
	}
	return true;
}

static uint32_t *
mark_mbuf(void *user, const union refs *refs, unsigned int i, unsigned int segment)
{
	const struct mempool_user *u = user;
	struct rte_mbuf *m = refs != NULL ? refs->mbuf[i] : u->source;

	while (m != NULL && segment-- > 0)
		m = m->next;
	return m != NULL ? rte_mbuf_to_priv(m) : NULL;
}

static unsigned int
holds_of_source(void *user)
{
	const struct mempool_user *u = user;

	return rte_mbuf_refcnt_read(u->source);
}

/* ---- both ---- */

/* What an lcore's cache keeps no other lcore could get. */
static void
rest(void *user)
{
	struct mempool_user *u = user;
	struct rte_mempool_cache *cache = rte_mempool_default_cache(u->mp, rte_lcore_id());

	rte_pktmbuf_free(u->source);
	u->source = NULL;
	if (cache != NULL)
		rte_mempool_cache_flush(cache, u->mp);
}

static int64_t
missing(struct pool *pool)
{
	const struct mempool_pool *p = pool->at;

	return (int64_t)p->mp->size - rte_mempool_avail_count(p->mp);
}

static void
end(struct pool *pool)
{
	struct mempool_pool *p = pool->at;

	rte_mempool_free(p->mp);
	free(p);
}

static const struct calls objects = {
	.ref_size = sizeof(void *),
	.get = get_objects,
	.put = put_objects,
	.rest = rest,
	.mark = mark_object,
	.missing = missing,
	.close = end,
};
ELEMENT_PLAYS(objects)
PASS_PLAYS(objects)

static const struct calls mbufs = {
	.ref_size = sizeof(void *),
	.get = get_objects,
	.put = put_objects,
	.alloc = alloc_mbuf,
	.alloc_bulk = alloc_mbufs,
	.free = free_mbuf,
	.clone = clone_mbuf,
	.send = send_mbufs,
	.receive = receive_mbufs,
	.ready = make_source,
	.rest = rest,
	.mark = mark_mbuf,
	.holds = holds_of_source,
	.missing = missing,
	.close = end,
};
PACKET_PLAYS(mbufs)
SEND_PLAYS(mbufs)

/* ---- pools ---- */

static void
clear_object(struct rte_mempool *mp, void *arg, void *object, unsigned int index)
{
	RTE_SET_USED(mp);
	RTE_SET_USED(arg);
	RTE_SET_USED(index);
	memset(object, 0, OBJECT);
}

static struct rte_mempool *
make_objects(const char *name, const char *ops, uint32_t population, uint32_t cache)
{
	struct rte_mempool *mp = rte_mempool_create_empty(
		name, population, OBJECT, cache, 0, SOCKET_ID_ANY, 0);

	if (mp != NULL && (rte_mempool_set_ops_byname(mp, ops, NULL) != 0 ||
				  rte_mempool_populate_default(mp) != (int)population)) {
		rte_mempool_free(mp);
		return NULL;
	}
	rte_mempool_obj_iter(mp, clear_object, NULL);
	return mp;
}

static void
clear_mark(struct rte_mempool *mp, void *arg, void *object, unsigned int index)
{
	RTE_SET_USED(mp);
	RTE_SET_USED(arg);
	RTE_SET_USED(index);
	memset(rte_mbuf_to_priv(object), 0, MARK);
}

static struct rte_mempool *
make_mbufs(const char *name, const char *ops, uint32_t population, uint32_t cache, bool has_marks)
{
	struct rte_mempool *mp = rte_pktmbuf_pool_create_by_ops(name, population, cache,
		has_marks ? MARK : 0, DATA_ROOM, SOCKET_ID_ANY, ops);

	if (mp != NULL && has_marks)
		rte_mempool_obj_iter(mp, clear_mark, NULL);
	return mp;
}

/* The guard has its caches inside, as large as the environment says, and none beside a
 * mempool's. */
static uint32_t
outer_cache(const struct subject *subject, uint32_t cache)
{
	char inner[16];

	if (strcmp(subject->name, "mbufpool_guard") != 0)
		return cache;
	snprintf(inner, sizeof(inner), "%u", cache);
	setenv("MBUFPOOL_GUARD_CACHE", inner, 1);
	return 0;
}

static bool
open_mempool(const struct subject *subject, const struct cell *cell, struct pool *pool)
{
	const enum form form = workloads[cell->workload].form;
	const bool is_mbufs = form == PACKETS || form == CLONES || form == SENT;
	const uint32_t cache = outer_cache(subject, cell->cache);
	struct mempool_pool *p = calloc(1, sizeof(*p));
	static unsigned int serial;
	char name[RTE_MEMPOOL_NAMESIZE];
	unsigned int i;

	if (p == NULL)
		return false;
	snprintf(name, sizeof(name), "bench%u", serial++);
	p->mp = is_mbufs
		? make_mbufs(name, subject->name, cell->population, cache, cell->is_checked)
		: make_objects(name, subject->name, cell->population, cache);
	if (p->mp == NULL) {
		free(p);
		return false;
	}
	for (i = 0; i < cell->threads; i++) {
		p->user[i].mp = p->mp;
		p->user[i].segments = form == CLONES ? size_of(cell->workload) : 0;
		pool->user[i] = &p->user[i];
	}
	pool->at = p;
	pool->calls = is_mbufs ? &mbufs : &objects;
	pool->play = is_mbufs ? mbufs_plays[cell->workload] : objects_plays[cell->workload];
	if (form == PASSED)
		objects_pass(cell->workload, pool);
	if (form == SENT)
		mbufs_send(cell->workload, pool);
	return true;
}

#define ON_A_MEMPOOL \
	[ELEMENTS] = open_mempool, [PASSED] = open_mempool, [PACKETS] = open_mempool, \
	[CLONES] = open_mempool, [SENT] = open_mempool

const struct subject mempool_subject = { .is_handler = true, .open = { ON_A_MEMPOOL } };

const struct subject lf_stack_subject = {
	.name = "lf_stack",
	.is_handler = true,
	.open = { [BARE] = open_bare_stack, ON_A_MEMPOOL },
};

const struct subject stack_subject = {
	.name = "stack",
	.is_handler = true,
	.open = { [BARE] = open_bare_stack, ON_A_MEMPOOL },
};

const struct subject ring_mp_mc_subject = {
	.name = "ring_mp_mc",
	.is_handler = true,
	.open = { [BARE] = open_bare_ring, [HANDED] = open_handed_ring, ON_A_MEMPOOL },
};
