/* misuses.c - what a program does wrong with an mbuf, once, and then goes on as if nothing were: what
 * cookies, DPDK's checks of mbufs, an address sanitizer, a handler or an audit see of it.
 *
 *     make misuses
 *     ./misuses PLAY FILE OPS [CACHE] --no-huge -m 64 --no-pci -l 0 [-d PLUGIN]
 *
 *   double-free     an mbuf is freed twice, at once
 *   late-free       an mbuf is freed, got by another owner, and freed once more by the first one; then the
 *                   other one writes to it, and frees it
 *   leak            an mbuf is got, and its last pointer is lost
 *   use-after-free  64 bytes are written to the data of an mbuf that was freed
 *   beyond          8 bytes are written just beyond an mbuf's buffer
 *   far-beyond      256 bytes are, over the header of the next mbuf
 *   nothing         nothing is done wrong
 *
 * Behind it a snapshot goes to FILE. Then each mbuf of the pool is got, written to and freed, three
 * times. Each of these is a line when it was done, so that a program that was ended says how far it
 * came. */
#include <errno.h>
#include <stdio.h>
#include <stdlib.h>
#include <string.h>

#include <rte_eal.h>
#include <rte_errno.h>
#include <rte_mbuf.h>
#include <rte_mempool.h>

#include "dump.h"

#define SIZE 1000
#define ROUNDS 3
#define LENGTH 64

static struct rte_mempool *pool;

static void
say(const char *what)
{
	printf("misuses: %s\n", what);
	fflush(stdout);
}

static struct rte_mbuf *
get(void)
{
	struct rte_mbuf *m = rte_pktmbuf_alloc(pool);

	if (m == NULL || rte_pktmbuf_append(m, LENGTH) == NULL) {
		say("no mbuf");
		exit(2);
	}
	memset(rte_pktmbuf_mtod(m, char *), 1, LENGTH);
	return m;
}

/* ---- the plays ---- */

static void
free_twice(void)
{
	struct rte_mbuf *m = get();

	rte_pktmbuf_free(m);
	rte_pktmbuf_free(m);
}

static void
free_late(void)
{
	struct rte_mbuf *m = get(), *others[SIZE], *again;
	unsigned int n = 0;

	rte_pktmbuf_free(m);
	for (again = get(); again != m; again = get())
		others[n++] = again;
	rte_pktmbuf_free_bulk(others, n);
	rte_pktmbuf_free(m);
	say("freed late");
	memset(rte_pktmbuf_mtod(again, char *), 5, LENGTH);
	rte_pktmbuf_free(again);
}

static void
leak(void)
{
	(void)get();
}

static void
use_after_free(void)
{
	struct rte_mbuf *m = get();

	rte_pktmbuf_free(m);
	memset(rte_pktmbuf_mtod(m, char *), 2, LENGTH);
}

/* An mbuf that has others behind it, since it has the least address. */
static struct rte_mbuf *
get_first(void)
{
	struct rte_mbuf *all[SIZE], *first = get();
	unsigned int n = 0;

	for (; rte_mempool_avail_count(pool) > 0; n++) {
		all[n] = get();
		if (all[n] < first)
			RTE_SWAP(all[n], first);
	}
	rte_pktmbuf_free_bulk(all, n);
	return first;
}

/* (a length that the compiler doesn't know, as that of a packet from outside) */
static void
write_beyond(size_t length)
{
	struct rte_mbuf *m = get_first();
	char *end = (char *)m->buf_addr + m->buf_len;

	__asm__ volatile("" : "+r"(length));
	memset(end, 3, length);
	rte_pktmbuf_free(m);
}

static void
beyond(void)
{
	write_beyond(8);
}

static void
far_beyond(void)
{
	write_beyond(256);
}

static void
nothing(void)
{
	rte_pktmbuf_free(get());
}

static const struct {
	const char *name;
	void (*play)(void);
} plays[] = {
	{"double-free", free_twice}, {"late-free", free_late},	{"leak", leak},
	{"beyond", beyond},	     {"far-beyond", far_beyond}, {"use-after-free", use_after_free},
	{"nothing", nothing},
};

/* ---- all ---- */

static void
snapshot(const char *path)
{
	FILE *out = fopen(path, "w");
	int ret = out == NULL ? -errno : mbufpool_dump(out, pool);

	if (out != NULL)
		fclose(out);
	printf("misuses: %s\n", ret == 0 ? "dumped" : rte_strerror(-ret));
	fflush(stdout);
}

/* Gets each mbuf of the pool and frees it; how many came, and how many of them twice. */
static void
goes_on(void)
{
	static struct rte_mbuf *all[2 * SIZE];
	unsigned int n = 0, twice = 0, i, j;

	while (n < RTE_DIM(all) && (all[n] = rte_pktmbuf_alloc(pool)) != NULL) {
		for (i = 0; i < n && all[i] != all[n]; i++)
			;
		twice += i < n;
		n++;
	}
	for (j = 0; j < n; j++)
		memset(rte_pktmbuf_mtod(all[j], char *), 4, LENGTH);
	printf("misuses: got %u of %u mbufs, %u of them twice\n", n, SIZE, twice);
	fflush(stdout);
	for (j = 0; j < n; j++)
		rte_pktmbuf_free(all[j]);
}

static int
play(const char *name)
{
	unsigned int i;

	for (i = 0; i < RTE_DIM(plays); i++)
		if (strcmp(plays[i].name, name) == 0) {
			plays[i].play();
			return 0;
		}
	fprintf(stderr, "misuses: there is no play '%s'\n", name);
	return -1;
}

int
main(int argc, char **argv)
{
	unsigned int cache = argc > 4 && argv[4][0] != '-' ? strtoul(argv[4], NULL, 10) : 0, i;
	int first = argc > 4 && argv[4][0] != '-' ? 4 : 3;

	if (argc < 4) {
		fprintf(stderr, "usage: misuses PLAY FILE OPS [CACHE] [EAL options]\n");
		return 2;
	}
	const char *name = argv[1], *file = argv[2], *ops = argv[3];

	argv[first] = argv[0];
	if (rte_eal_init(argc - first, argv + first) < 0)
		return 2;
	pool = rte_pktmbuf_pool_create_by_ops("packets", SIZE, cache, 0, RTE_MBUF_DEFAULT_BUF_SIZE,
					      SOCKET_ID_ANY, ops);
	if (pool == NULL) {
		fprintf(stderr, "misuses: no pool on %s: %s\n", ops, rte_strerror(rte_errno));
		return 2;
	}
	if (play(name) != 0)
		return 2;
	say("done");
	snapshot(file);
	for (i = 0; i < ROUNDS; i++)
		goes_on();
	rte_mempool_audit(pool);
	say("nothing was seen");
	return 0;
}
