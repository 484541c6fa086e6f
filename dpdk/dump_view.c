/* dump_view.c - a mempool of mbufs, copied as far as a dump needs it: see dump_view.h. */
#ifndef _GNU_SOURCE
#define _GNU_SOURCE
#endif
#include <dlfcn.h>
#include <errno.h>
#include <stdlib.h>
#include <string.h>

#include <rte_eal.h>
#include <rte_eal_memconfig.h>
#include <rte_memory.h>

#include "dump_view.h"

#define MAX_POPULATION 16777214

#define read_now(at) __atomic_load_n(at, __ATOMIC_RELAXED)

/* ---- the memory of mempools ---- */

static int
add_land(struct lands *lands, const struct land *land)
{
	struct land *all = lands->all;
	uint32_t room = lands->room;

	if (lands->count == room) {
		room = 2 * room + 16;
		all = realloc(all, room * sizeof(*all));
		if (all == NULL)
			return -ENOMEM;
		lands->all = all;
		lands->room = room;
	}
	lands->all[lands->count++] = *land;
	return 0;
}

int
dump_is_shared_at(uintptr_t at)
{
	const struct rte_memseg_list *list = rte_mem_virt2memseg_list((void *)at);

	return list != NULL && !list->external && rte_mem_virt2memseg((void *)at, list) != NULL;
}

/* Whether this process has the memory too. (a primary may have taken some of its own) */
static int
is_shared(const struct land *land)
{
	return rte_eal_process_type() == RTE_PROC_PRIMARY ||
	       (dump_is_shared_at(land->from) && dump_is_shared_at(land->to - 1));
}

static int
add_lands(struct lands *lands, struct rte_mempool *mp)
{
	const struct rte_mempool_memhdr *chunk;
	int ret = 0;

	STAILQ_FOREACH(chunk, &mp->mem_list, next) {
		struct land land = {(uintptr_t)chunk->addr, (uintptr_t)chunk->addr + chunk->len, mp};

		if (!is_shared(&land))
			return -EACCES;
		ret = add_land(lands, &land);
		if (ret != 0)
			return ret;
	}
	return 0;
}

struct gathering {
	struct lands *lands;
	int ret;
};

/* (what of another pool isn't shared can't be looked at, and that is no fault of this one) */
static void
gather(struct rte_mempool *mp, void *opaque)
{
	struct gathering *gathering = opaque;

	if (gathering->ret == 0 || gathering->ret == -EACCES)
		gathering->ret = add_lands(gathering->lands, mp);
}

int
dump_lands_of_all(struct lands *lands)
{
	struct gathering gathering = {lands, 0};

	rte_mempool_walk(gather, &gathering);
	return gathering.ret == -EACCES ? 0 : gathering.ret;
}

static int
is_within(const struct land *land, uintptr_t at, size_t bytes)
{
	return land->from <= at && at <= land->to && bytes <= land->to - at;
}

struct rte_mempool *
dump_lands_find(struct lands *lands, const void *at, size_t bytes)
{
	uintptr_t from = (uintptr_t)at;
	uint32_t i;

	if (from % sizeof(void *) != 0)
		return NULL;
	if (lands->last < lands->count && is_within(&lands->all[lands->last], from, bytes))
		return lands->all[lands->last].mp;
	for (i = 0; i < lands->count; i++)
		if (is_within(&lands->all[i], from, bytes)) {
			lands->last = i;
			return lands->all[i].mp;
		}
	return NULL;
}

/* ---- the objects of a pool ---- */

/* Whether a mempool is as long as the DPDK makes one that this was built with. In one of another build
 * the caches are of another size, or of another number of lcores, or stand elsewhere. */
static int
is_laid_out_alike(const struct rte_mempool *mp)
{
	size_t bytes = dump_common_bytes(mp, "", mp),
	       own = RTE_MEMPOOL_HEADER_SIZE(mp, mp->cache_size) + mp->private_data_size;

	/* (a memzone that isn't found, as the name was overwritten, says nothing) */
	return bytes == 0 || bytes == RTE_ALIGN_CEIL(own, (size_t)RTE_MEMPOOL_ALIGN);
}

/* Whether objects are as large as mbufs, and there is what a pool of mbufs says of itself. */
static int
has_mbufs(struct rte_mempool *mp)
{
	const struct rte_pktmbuf_pool_private *own;

	if (mp->private_data_size < sizeof(*own))
		return 0;
	own = rte_mempool_get_priv(mp);
	return mp->elt_size >= sizeof(struct rte_mbuf) + own->mbuf_priv_size;
}

static int
by_address(const void *a, const void *b)
{
	const struct place *p = a, *q = b;

	return (p->mbuf > q->mbuf) - (p->mbuf < q->mbuf);
}

/* Notes each object, as rte_mempool_obj_iter() comes to them; a header that was overwritten doesn't
 * lead out of the pool's memory. */
static int
note_objects(struct view *v)
{
	const struct rte_mempool_objhdr *hdr = STAILQ_FIRST(&v->mp->elt_list);
	uint32_t i, found = 0;

	for (i = 0; i < v->size; i++, hdr = STAILQ_NEXT(hdr, next)) {
		if (dump_lands_find(&v->lands, hdr, sizeof(*hdr) + v->mp->elt_size) == NULL)
			return -EFAULT;
		v->mbufs[i] = (const struct rte_mbuf *)(hdr + 1);
		v->places[i].mbuf = (uintptr_t)v->mbufs[i];
		v->places[i].elem = i;
		found += v->mbufs[i]->pool == v->mp;
	}
	qsort(v->places, v->size, sizeof(*v->places), by_address);
	/* One overwritten mbuf doesn't make it another kind of pool. */
	return found == 0 ? -EINVAL : 0;
}

uint32_t
dump_view_find(const struct view *v, const void *object)
{
	uint32_t low = 0, high = v->size, middle;

	while (low < high) {
		middle = low + (high - low) / 2;
		if (v->places[middle].mbuf == (uintptr_t)object)
			return v->places[middle].elem;
		if (v->places[middle].mbuf < (uintptr_t)object)
			low = middle + 1;
		else
			high = middle;
	}
	return NO_ELEM;
}

struct shot
dump_shot_of(const struct rte_mbuf *m)
{
	uint64_t flags = read_now(&m->ol_flags);
	struct shot s = {
		.next = read_now(&m->next),
		.refcnt = read_now(&m->refcnt),
		.off = read_now(&m->data_off),
		.len = read_now(&m->data_len),
		.buf = read_now(&m->buf_len),
	};

	if ((flags & RTE_MBUF_F_INDIRECT) != 0 && (flags & RTE_MBUF_F_EXTERNAL) == 0)
		s.base = (const struct rte_mbuf *)((uintptr_t)read_now(&m->buf_addr) - sizeof(*m) -
						   read_now(&m->priv_size));
	return s;
}

/* ---- the guard ---- */

/* mbufpool_guard_in_pool() of mempool_guard.h, by the program or by the plugin that EAL loaded. */
typedef int list_in_pool(const struct rte_mempool *mp, void **objects, unsigned int n);
extern list_in_pool mbufpool_guard_in_pool;
#pragma weak mbufpool_guard_in_pool

/* Whether it is on the guard, which isn't recognised by what it is made of. A secondary process has other
 * indices, and not what they point to. */
static int
is_guard(const struct rte_mempool *mp)
{
	return rte_eal_process_type() == RTE_PROC_PRIMARY && mp->ops_index >= 0 &&
	       mp->ops_index < RTE_MEMPOOL_MAX_OPS_IDX &&
	       strcmp(rte_mempool_get_ops(mp->ops_index)->name, "mbufpool_guard") == 0;
}

static void
recognise(struct view *v)
{
	dump_common_recognise(v);
	if (v->kind == COMMON_UNKNOWN && is_guard(v->mp)) {
		v->kind = COMMON_GUARD;
		v->capacity = v->size;
	}
}

/* Of mbufpool_guard the common part and its own caches are one, and listed without a get: no lcore
 * can get what another one's cache has. */
static int
list_guard(struct view *v)
{
	list_in_pool *list = mbufpool_guard_in_pool;
	void *plugin;
	int found;

	if (list == NULL) {
		plugin = dlopen("librte_mempool_mbufpool_guard.so", RTLD_NOW | RTLD_NOLOAD);
		if (plugin == NULL)
			return -ENOTSUP;
		list = (list_in_pool *)(uintptr_t)dlsym(plugin, "mbufpool_guard_in_pool");
		dlclose(plugin);
	}
	if (list == NULL)
		return -ENOTSUP;
	found = list(v->mp, v->common, v->capacity);
	if (found < 0)
		return found;
	v->nb_common = RTE_MIN((uint32_t)found, v->capacity);
	return 0;
}

/* ---- views ---- */

static int
take_memory(struct view *v)
{
	v->mbufs = calloc(v->size, sizeof(*v->mbufs));
	v->places = calloc(v->size, sizeof(*v->places));
	v->shots = calloc(v->size, sizeof(*v->shots));
	v->common = calloc((size_t)v->capacity + 1, sizeof(*v->common));
	v->cached = calloc((size_t)RTE_MAX_LCORE * MOST_CACHED, sizeof(*v->cached));
	v->marks = calloc(v->size, sizeof(*v->marks));
	v->clones = calloc(v->size, sizeof(*v->clones));
	v->walked = calloc(v->size, sizeof(*v->walked));
	return v->mbufs == NULL || v->places == NULL || v->shots == NULL || v->common == NULL ||
			       v->cached == NULL || v->marks == NULL || v->clones == NULL ||
			       v->walked == NULL
		       ? -ENOMEM
		       : dump_magazines_take_memory(v);
}

int
dump_view_open(struct view *v, struct rte_mempool *mp)
{
	int ret;

	v->mp = mp;
	if (!is_laid_out_alike(mp))
		return -EPROTO;
	if (!has_mbufs(mp))
		return -EINVAL;
	v->size = mp->populated_size;
	if (v->size == 0 || v->size > MAX_POPULATION)
		return -E2BIG;
	recognise(v);
	if (v->kind == COMMON_UNKNOWN)
		return -ENOTSUP;
	ret = add_lands(&v->lands, mp);
	if (ret == 0)
		ret = take_memory(v);
	return ret != 0 ? ret : note_objects(v);
}

/* Reads how many objects the cache of each lcore has; an overwritten length doesn't lead out of it. */
static void
count_cached(struct view *v)
{
	unsigned int lcore;

	for (lcore = 0; lcore < RTE_MAX_LCORE; lcore++)
		v->nb_cached[lcore] =
			v->mp->cache_size == 0
				? 0
				: RTE_MIN(read_now(&v->mp->local_cache[lcore].len), MOST_CACHED);
}

static void
copy_cached(struct view *v)
{
	unsigned int lcore;
	uint32_t k;

	count_cached(v);
	for (lcore = 0; lcore < RTE_MAX_LCORE; lcore++)
		for (k = 0; k < v->nb_cached[lcore]; k++)
			v->cached[lcore * MOST_CACHED + k] =
				read_now(&v->mp->local_cache[lcore].objs[k]);
}

int
dump_view_fill(struct view *v)
{
	uint32_t e;
	int ret;

	ret = v->kind == COMMON_GUARD ? list_guard(v) : dump_common_copy(v);
	copy_cached(v);
	for (e = 0; e < v->size; e++)
		v->shots[e] = dump_shot_of(v->mbufs[e]);
	return ret;
}

void
dump_view_glance(struct view *v, struct rte_mempool *mp)
{
	v->mp = mp;
	if (!is_laid_out_alike(mp))
		return;
	dump_common_recognise(v);
	dump_common_glance(v);
	count_cached(v);
}

void
dump_view_close(struct view *v)
{
	free(v->mbufs);
	free(v->places);
	free(v->lands.all);
	free(v->shots);
	free(v->common);
	free(v->copied);
	free(v->cached);
	free(v->marks);
	free(v->clones);
	free(v->walked);
}
