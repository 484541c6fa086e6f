/* cores.c - a program of whose cores check-core reads the mempools.
 *
 *     make cores
 *     ./cores PLAY DIR --no-huge -m 72 --no-pci -l 0-2
 *
 * It stops by SIGTRAP where gdb is to make a core. Plays:
 *
 *   stand      has packets, chains and clones of a pool on each handler, and of two pairs of pools. Dumps
 *              them to DIR/NAME.json, and which worker is which lcore to DIR/workers. Stops once.
 *   damage     overwrites something and stops, and puts it right again, for each of `damages`.
 *   magazines  does so with a pool on the handler mbufpool, for each of `damages_of_magazines`.
 *   crash      frees an mbuf twice without a cache, stops, frees one twice into the cache of its last
 *              lcore, and reads its second segment there, which is NULL by then. */
#ifndef ALLOW_EXPERIMENTAL_API
#define ALLOW_EXPERIMENTAL_API /* what rte_stack.h has in line calls one */
#endif
#include <limits.h>
#include <signal.h>
#include <stdio.h>
#include <string.h>

#include <rte_eal.h>
#include <rte_errno.h>
#include <rte_launch.h>
#include <rte_lcore.h>
#include <rte_mbuf.h>
#include <rte_ring.h>
#include <rte_stack.h>

#include "dump.h"
#include "pool_magazines.h"

#define POPULATION 511
#define CACHE 32
#define PACKETS 24 /* of each lcore */

static const char *folder;
static struct rte_mbuf *packets[RTE_MAX_LCORE][PACKETS];

static struct rte_mempool *
open_pool(const char *name, const char *ops, unsigned int cache)
{
	struct rte_mempool *mp = rte_pktmbuf_pool_create_by_ops(
		name, POPULATION, cache, 0, RTE_MBUF_DEFAULT_BUF_SIZE, SOCKET_ID_ANY, ops);

	if (mp == NULL)
		rte_exit(2, "%s: no pool: %s\n", ops, rte_strerror(rte_errno));
	return mp;
}

static FILE *
open_file(const char *name, const char *end)
{
	char path[PATH_MAX];
	FILE *f;

	snprintf(path, sizeof(path), "%s/%s%s", folder, name, end);
	f = fopen(path, "w");
	if (f == NULL)
		rte_exit(2, "%s can't be written\n", path);
	return f;
}

static void
close_file(FILE *f, int ret)
{
	if (fclose(f) != 0 || ret != 0)
		rte_exit(2, "a dump failed: %s\n", strerror(-ret));
}

/* ---- stand ---- */

/* A pool, and where its clones are of. */
struct two {
	struct rte_mempool *mp, *clones;
};

static struct rte_mbuf *
get_packet(struct rte_mempool *mp, uint16_t length)
{
	struct rte_mbuf *m = rte_pktmbuf_alloc(mp);

	if (m == NULL || rte_pktmbuf_append(m, length) == NULL)
		rte_exit(2, "no packet: %s\n", mp->name);
	return m;
}

/* An lcore gets packets, with chains and clones among them, and frees some of them. */
static int
fill(void *arg)
{
	struct rte_mbuf **own = packets[rte_lcore_id()];
	struct two *two = arg;
	unsigned int k;

	for (k = 0; k < PACKETS; k++) {
		own[k] = get_packet(two->mp, 60 + 7 * k);
		if (k % 4 == 1)
			rte_pktmbuf_chain(own[k], get_packet(two->mp, 100));
		if (k % 3 == 2) {
			rte_pktmbuf_free(own[k]);
			own[k] = rte_pktmbuf_clone(own[k - 1], two->clones);
		}
		if (k % 8 == 7) {
			rte_pktmbuf_free(own[k - 2]);
			own[k - 2] = NULL;
		}
	}
	return 0;
}

/* (one lcore after another, as some handlers ask) */
static void
fill_all(struct rte_mempool *mp, struct rte_mempool *clones)
{
	struct two two = {mp, clones};
	unsigned int lcore;

	RTE_LCORE_FOREACH_WORKER (lcore) {
		rte_eal_remote_launch(fill, &two, lcore);
		rte_eal_wait_lcore(lcore);
	}
	fill(&two);
}

/* (those of this project are where EAL has loaded their plugin) */
static int
is_registered(const char *ops)
{
	unsigned int k;

	for (k = 0; k < rte_mempool_ops_table.num_ops; k++)
		if (strcmp(rte_mempool_ops_table.ops[k].name, ops) == 0)
			return 1;
	return 0;
}

/* A handler that no dump knows: it is the ring by another name. Says whether there was room for it. */
static int
register_unknown(void)
{
	struct rte_mempool *mp = open_pool("model", "ring_mp_mc", 0);
	struct rte_mempool_ops ops = *rte_mempool_get_ops(mp->ops_index);

	rte_mempool_free(mp);
	snprintf(ops.name, sizeof(ops.name), "unknown");
	return rte_mempool_register_ops(&ops) >= 0;
}

/* A pool whose mbufs have clones in another one, which may have clones of its own besides. */
static void
stand_as_pair(const char *name, const char *name_of_clones, int are_mixed)
{
	struct rte_mempool *mp = open_pool(name, "lf_stack", CACHE);
	struct rte_mempool *clones = open_pool(name_of_clones, "ring_mp_mc", 0);
	FILE *out = open_file(name, ".json"), *out_clones = open_file(name_of_clones, ".json");
	int ret;

	fill_all(mp, clones);
	if (are_mixed)
		fill_all(clones, clones);
	ret = mbufpool_dump_pair(out, out_clones, mp, clones);
	close_file(out, ret);
	close_file(out_clones, ret);
}

static void
stand(void)
{
	static const struct {
		const char *name;
		unsigned int cache;
	} handlers[] = {
		{"ring_mp_mc", CACHE},	{"ring_sp_sc", CACHE},	{"ring_mp_sc", CACHE},
		{"ring_sp_mc", CACHE},	{"ring_mt_rts", CACHE}, {"ring_mt_hts", CACHE},
		{"stack", CACHE},	{"lf_stack", CACHE},	{"mbufpool", CACHE},
		{"mbufpool_guard", 0},
	};
	FILE *workers = open_file("workers", ""), *out;
	struct rte_mempool *mp;
	unsigned int k;

	for (k = 0; k < RTE_DIM(handlers); k++) {
		if (!is_registered(handlers[k].name))
			continue;
		mp = open_pool(handlers[k].name, handlers[k].name, handlers[k].cache);
		fill_all(mp, mp);
		out = open_file(handlers[k].name, ".json");
		close_file(out, mbufpool_dump(out, mp));
		mbufpool_dump_workers(workers, mp);
	}
	close_file(workers, 0);

	stand_as_pair("buffers", "clones", 0);
	stand_as_pair("sources", "mixed", 1);

	if (register_unknown()) {
		mp = open_pool("unknown", "unknown", CACHE);
		fill_all(mp, mp);
		printf("unknown at %p\n", (void *)mp);
	}
	rte_mempool_create("objects", 7, 100, 0, 0, NULL, NULL, NULL, NULL, SOCKET_ID_ANY, 0);
	fflush(stdout);
	raise(SIGTRAP);
}

/* ---- damage ---- */

static struct {
	void *at;
	size_t n;
	unsigned char was[256];
} damaged;

static void
overwrite(void *at, const void *bytes, size_t n)
{
	damaged.at = at;
	damaged.n = n;
	memcpy(damaged.was, at, n);
	memcpy(at, bytes, n);
}

static struct rte_mempool *on_ring, *on_stack, *on_lf_stack;
static struct rte_mbuf *first, *second; /* two packets of on_ring */

static struct rte_mempool_objhdr *
header_of(struct rte_mempool *mp, uint32_t elem)
{
	return rte_mempool_get_header(mbufpool_mbuf_of(mp, elem));
}

static void
next_to_itself(void)
{
	overwrite(&first->next, &first, sizeof(first));
}

static void
next_to_nothing(void)
{
	static const uintptr_t wild = 0x6162636465666768;

	overwrite(&first->next, &wild, sizeof(wild));
}

static void
cache_too_long(void)
{
	static const uint32_t length = 1000000;

	overwrite(&on_ring->local_cache[rte_lcore_id()].len, &length, sizeof(length));
}

/* An object's link leads back to one before it. */
static void
list_goes_round(void)
{
	void *back = header_of(on_ring, 5);

	overwrite(&header_of(on_ring, 100)->next, &back, sizeof(back));
}

/* What lies in front of an object reaches its header. */
static void
buffer_overflows(void)
{
	struct rte_mempool_objhdr garbage;

	memset(&garbage, 'A', sizeof(garbage));
	overwrite(header_of(on_ring, 101), &garbage, sizeof(garbage));
}

static void
list_is_cut(void)
{
	overwrite(&on_ring->elt_list, &(void *){NULL}, sizeof(void *));
}

static void
ring_isn_t_one(void)
{
	overwrite(&((struct rte_ring *)on_ring->pool_data)->mask, "AAAA", 4);
}

static void
ring_is_elsewhere(void)
{
	overwrite(&on_ring->pool_data, "AAAAAAAA", 8);
}

static void
stack_too_long(void)
{
	overwrite(&((struct rte_stack *)on_stack->pool_data)->stack_std.len, "AAAA", 4);
}

/* A link of the lock-free stack leads to itself. */
static void
stack_goes_round(void)
{
	struct rte_stack_lf_elem *top =
		((struct rte_stack *)on_lf_stack->pool_data)->stack_lf.used.head.top;

	overwrite(&top->next->next, &top->next, sizeof(void *));
}

static void
pool_is_none(void)
{
	overwrite(on_ring, "\001\002\003\004\005\006\007\010", 8);
}

static void (*const damages[])(void) = {
	next_to_itself, next_to_nothing, cache_too_long,    list_goes_round, buffer_overflows,
	list_is_cut,	ring_isn_t_one,	 ring_is_elsewhere, stack_too_long,  stack_goes_round,
	pool_is_none,
};

static void
play_damages(void (*const *all)(void), size_t n)
{
	size_t k;

	for (k = 0; k < n; k++) {
		all[k]();
		raise(SIGTRAP);
		memcpy(damaged.at, damaged.was, damaged.n);
	}
}

static void
damage(void)
{
	on_ring = open_pool("on_ring", "ring_mp_mc", CACHE);
	on_stack = open_pool("on_stack", "stack", CACHE);
	on_lf_stack = open_pool("on_lf_stack", "lf_stack", CACHE);
	first = get_packet(on_ring, 60);
	second = get_packet(on_ring, 1514);
	play_damages(damages, RTE_DIM(damages));
}

/* ---- damage of magazines ---- */

static struct rte_mempool *on_mbufpool;

static struct pool_magazines *
magazines(void)
{
	return on_mbufpool->pool_data;
}

/* The first one that has something. */
static struct magazine *
some_magazine(void)
{
	struct magazine *m = (struct magazine *)(uintptr_t)magazines()->address;

	while (m->count == 0)
		m++;
	return m;
}

static const uint64_t many = 1000000;

static void
magazine_too_long(void)
{
	overwrite(&some_magazine()->count, &many, sizeof(many));
}

static void
value_is_no_object(void)
{
	overwrite(&some_magazine()->objects[0], "AAAAAAAA", 8);
}

static void
magazines_aren_t_any(void)
{
	overwrite(&magazines()->magic, "AAAAAAAA", 8);
}

/* (there is room for as many as the mempool has, of which each is 0) */
static void
kept_too_many(void)
{
	overwrite(&magazines()->nb_kept, &many, sizeof(many));
}

static void (*const damages_of_magazines[])(void) = {
	magazine_too_long, value_is_no_object, magazines_aren_t_any, kept_too_many,
};

static void
damage_magazines(void)
{
	on_mbufpool = open_pool("on_mbufpool", "mbufpool", CACHE);
	get_packet(on_mbufpool, 60);
	play_damages(damages_of_magazines, RTE_DIM(damages_of_magazines));
}

/* ---- crash ---- */

static void
free_twice(struct rte_mbuf *m)
{
	rte_pktmbuf_free(m);
	rte_pktmbuf_free(m);
}

static __rte_noinline uint16_t
second_length(const struct rte_mbuf *m)
{
	return m->next->data_len;
}

static int
free_and_read(void *arg)
{
	struct rte_mbuf *m = arg;

	free_twice(m);
	return second_length(m);
}

static void
crash(void)
{
	struct rte_mempool *without = open_pool("without", "ring_mp_mc", 0);
	struct rte_mempool *with = open_pool("with", "ring_mp_mc", CACHE);
	unsigned int lcore, last = rte_lcore_id();
	struct rte_mbuf *m;

	fill_all(without, without);
	m = get_packet(without, 60);
	printf("freed twice without a cache: element %u\n", mbufpool_elem_of(without, m));
	fflush(stdout);
	free_twice(m);
	raise(SIGTRAP);

	fill_all(with, with);
	m = get_packet(with, 60);
	rte_pktmbuf_chain(m, get_packet(with, 1000));
	RTE_LCORE_FOREACH (lcore)
		last = lcore;
	printf("freed twice by lcore %u: element %u\n", last, mbufpool_elem_of(with, m));
	fflush(stdout);
	if (last != rte_lcore_id())
		rte_eal_remote_launch(free_and_read, m, last);
	else
		free_and_read(m);
	rte_eal_mp_wait_lcore();
}

static const struct {
	const char *name;
	void (*play)(void);
} plays[] = {
	{"stand", stand},
	{"damage", damage},
	{"magazines", damage_magazines},
	{"crash", crash},
};

int
main(int argc, char **argv)
{
	const char *name = argc < 3 ? "" : argv[1];
	unsigned int k = 0;

	while (k < RTE_DIM(plays) && strcmp(plays[k].name, name) != 0)
		k++;
	if (k == RTE_DIM(plays)) {
		fprintf(stderr, "usage: cores stand|damage|magazines|crash DIR [EAL options]\n");
		return 2;
	}
	folder = argv[2];
	argv[2] = argv[0];
	if (rte_eal_init(argc - 2, argv + 2) < 0)
		return 2;
	plays[k].play();
	return 0;
}
