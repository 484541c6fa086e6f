/* guard_open.c - how a mempool on the handler "mbufpool_guard" is made, filled and ended. */
#include <errno.h>
#include <stdlib.h>

#include <rte_malloc.h>
#include <rte_pause.h>

#include "guard_steps.h"

#define MAX_WORKERS 1024
#define TRIES 1000000
#define CACHE 256
#define LEAST_CACHE 32
#define MAX_CACHE 512
#define MAX_WAITING 1048576

/* ---- what a worker keeps ---- */

/* What the environment wishes, from 0 to `most`; or -1 where it wishes nothing. */
static long
wish_of(const char *name, unsigned long most)
{
	const char *wish = getenv(name);
	unsigned long n;
	char *end;

	if (wish == NULL)
		return -1;
	n = strtoul(wish, &end, 10);
	if (end != wish && *end == 0 && n <= most)
		return n;
	guard_log_wish(name, wish, most);
	return -1;
}

/* How many elements that a worker put last wait before it gives them again: as the environment says, as
 * long as all workers' together are half of the objects at most. */
static uint32_t
waiting_of(const struct rte_mempool *mp, unsigned int workers)
{
	long wish = wish_of("MBUFPOOL_GUARD_QUARANTINE", MAX_WAITING), fair = mp->size / 2 / workers;

	if (wish > fair)
		guard_log_waiting(mp, wish, fair);
	return wish < 0 ? 0 : RTE_MIN(wish, fair);
}

/* How many elements a worker keeps besides these: what the environment says. Else as many that all
 * workers keep a quarter of the objects at most, or half of them with those that wait, and none where that
 * is few: what one lcore keeps no other can get, and a program with a small mempool counts on all of it.
 * None as well where the mempool has a cache itself. */
static uint32_t
cache_of(const struct rte_mempool *mp, unsigned int workers, uint32_t waiting)
{
	long wish = wish_of("MBUFPOOL_GUARD_CACHE", MAX_CACHE);
	uint32_t fair = RTE_MIN(mp->size / 4 / workers, mp->size / 2 / workers - waiting);

	if (wish >= 0)
		return wish;
	if (mp->cache_size != 0 || fair < LEAST_CACHE)
		return 0;
	return RTE_MIN(fair, (uint32_t)CACHE);
}

/* ---- the life of a pool ---- */

/* How many workers the library is told of, by which it makes its magazines as small as they are to be for so
 * many objects, which may be fewer than there are elements. */
static uint32_t
workers_told(const struct guard_pool *p, unsigned int workers)
{
	uint64_t told = ((uint64_t)workers * p->places.all + p->size - 1) / p->size;

	return RTE_MIN(told, (uint64_t)MAX_WORKERS);
}

/* Opens the library's pool, and gives each enabled lcore a worker, as far as there are some. */
static uint32_t
open_workers(struct guard_pool *p)
{
	unsigned int workers = RTE_MIN(rte_lcore_count() + 1, (unsigned int)MAX_WORKERS), lcore;
	uint32_t waiting = waiting_of(p->mp, workers), cache = cache_of(p->mp, workers, waiting), cause;

	cause = mbufpool_guard_open(p->places.all, cache, waiting, workers_told(p, workers), TRIES,
		&p->shared.guard);
	RTE_LCORE_FOREACH (lcore) {
		if (cause != 0 || --workers == 0)
			break;
		cause = mbufpool_guard_split(&p->shared.guard, &p->lcores[lcore].guard);
		p->own[lcore] = &p->lcores[lcore];
	}
	return cause;
}

/* (an address behind the last object of a chunk can lie in the place behind it) */
static int
make_tables(struct guard_pool *p)
{
	p->objects = calloc((size_t)p->places.all + 1, sizeof(*p->objects));
	p->pasts = calloc(p->places.all, sizeof(*p->pasts));
	p->numbers = calloc(p->places.all, sizeof(*p->numbers));
	return p->objects == NULL || p->pasts == NULL || p->numbers == NULL ? -ENOMEM : 0;
}

/* Gives what a user's worker keeps to all, and so meets all of it. */
static void
flush(struct guard_pool *p, struct guard_user *u)
{
	while (mbufpool_guard_flush(&u->guard) == MBUFPOOL_CONTENDED)
		rte_pause();
	guard_tell_late(p, u);
}

static void
end_pool(struct guard_pool *p)
{
	unsigned int lcore;

	for (lcore = 0; lcore < RTE_MAX_LCORE; lcore++)
		mbufpool_guard_end(&p->lcores[lcore].guard);
	mbufpool_guard_end(&p->shared.guard);
	free(p->numbers);
	free(p->objects);
	free(p->pasts);
	rte_free(p);
}

static int
open_pool(struct guard_pool *p, struct rte_mempool *mp)
{
	uint32_t cause;

	if (!guard_way_begin() || !object_places_begin(&p->places, mp) || make_tables(p) != 0)
		return -ENOMEM;
	cause = open_workers(p);
	if (cause == MBUFPOOL_BAD_POOL) {
		guard_log_size(mp);
		return -EINVAL;
	}
	/* (the elements are out with the shared worker until they have objects) */
	p->shared.gets = p->places.all;
	return cause != 0 ? -ENOMEM : 0;
}

int
guard_make(struct rte_mempool *mp)
{
	struct guard_pool *p;
	int err;

	RTE_BUILD_BUG_ON(RTE_MAX_LCORE + 1 >= MAX_WAYS);
	p = rte_zmalloc_socket("mbufpool_guard", sizeof(*p), 2 * RTE_CACHE_LINE_SIZE, mp->socket_id);
	if (p == NULL)
		return -ENOMEM;
	p->mp = mp;
	p->size = mp->size;
	rte_spinlock_init(&p->lock);
	err = open_pool(p, mp);
	if (err != 0) {
		end_pool(p);
		return err;
	}
	if (mp->cache_size != 0)
		guard_log_cache(mp);
	mp->pool_data = p;
	guard_list_add(p);
	return 0;
}

void
guard_free(struct rte_mempool *mp)
{
	struct guard_pool *p = mp->pool_data;
	unsigned int lcore;

	mp->pool_data = NULL;
	guard_list_remove(p);
	for (lcore = 0; lcore < RTE_MAX_LCORE; lcore++)
		flush(p, &p->lcores[lcore]);
	flush(p, &p->shared);
	guard_log_left_out(p);
	end_pool(p);
}

/* A memory chunk is to be filled with objects. In the end none of them are one worker's alone. */
int
guard_populate(struct rte_mempool *mp, unsigned int max_objs, void *vaddr, rte_iova_t iova,
	size_t len, rte_mempool_populate_obj_cb_t *obj_cb, void *obj_cb_arg)
{
	struct guard_pool *p = mp->pool_data;
	struct guard_user *u;
	int populated;

	if (!object_chunk_begin(&p->places))
		return -ENOSPC;
	p->filling = (uintptr_t)vaddr;
	p->filling_end = p->filling + len;
	populated = rte_mempool_op_populate_default(
		mp, max_objs, vaddr, iova, len, obj_cb, obj_cb_arg);
	p->filling = 0;
	p->filling_end = 0;
	object_chunk_end(&p->places);
	u = guard_lock(p);
	flush(p, u);
	guard_unlock(p, u);
	return populated;
}
