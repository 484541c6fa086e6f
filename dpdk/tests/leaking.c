/* leaking.c - a plugin that leaks mbufs of the DPDK program that loads it: what `mbufpool audit NEW
 * --since OLD` is tried on in dpdk-testpmd.
 *
 *     make libleaking.so
 *     LEAKING=FILE dpdk-testpmd -d $PWD/libleaking.so [EAL options] -- [options]
 *
 * A thread of its own waits until FILE is there: whoever makes it knows that the program has begun. Then
 * it gets a packet of the mempool mb_pool_0 four times a second and lets it go: one of one mbuf, a chain
 * of two, and a clone whose original was freed, in turn. Of each it writes a line to FILE, the seconds
 * since its first and the mbufs as an audit has them: `0.503: 29 30`, or `0.754: 7>5` of a clone. It
 * goes on until FILE is there no more. */
#include <fcntl.h>
#include <inttypes.h>
#include <pthread.h>
#include <stdio.h>
#include <stdlib.h>
#include <time.h>
#include <unistd.h>

#include <rte_common.h>
#include <rte_mbuf.h>
#include <rte_mempool.h>

#include "dump.h"

#define POOL "mb_pool_0" /* testpmd's, of the first socket */
#define EVERY 250000	 /* microseconds */
#define LENGTH 60

static struct rte_mempool *pool;
static FILE *list;

static double
now(void)
{
	struct timespec t;

	clock_gettime(CLOCK_MONOTONIC, &t);
	return t.tv_sec + t.tv_nsec / 1e9;
}

static struct rte_mbuf *
get_one(void)
{
	struct rte_mbuf *m = rte_pktmbuf_alloc(pool);

	if (m != NULL)
		rte_pktmbuf_append(m, LENGTH);
	return m;
}

static struct rte_mbuf *
get_two(void)
{
	struct rte_mbuf *m = get_one(), *tail = get_one();

	if (m != NULL && tail != NULL && rte_pktmbuf_chain(m, tail) == 0)
		return m;
	rte_pktmbuf_free(m);
	rte_pktmbuf_free(tail);
	return NULL;
}

/* A clone, which alone has the buffer of its original then. */
static struct rte_mbuf *
get_clone(void)
{
	struct rte_mbuf *m = get_one(), *clone = m == NULL ? NULL : rte_pktmbuf_clone(m, pool);

	rte_pktmbuf_free(m);
	return clone;
}

static void
tell(struct rte_mbuf *m, double since)
{
	fprintf(list, "%.3f:", now() - since);
	for (; m != NULL; m = m->next) {
		fprintf(list, " %" PRIu32, mbufpool_elem_of(pool, m));
		if (RTE_MBUF_CLONED(m))
			fprintf(list, ">%" PRIu32, mbufpool_elem_of(pool, rte_mbuf_from_indirect(m)));
	}
	fprintf(list, "\n");
	fflush(list);
}

static void
leak(const char *file)
{
	static struct rte_mbuf *(*const ways[])(void) = {get_one, get_two, get_clone};
	double since = now();
	unsigned int k;

	for (k = 0; access(file, F_OK) == 0; k++) {
		struct rte_mbuf *m = ways[k % RTE_DIM(ways)]();

		if (m != NULL)
			tell(m, since);
		usleep(EVERY);
	}
}

static void *
wait_and_leak(void *arg)
{
	const char *file = arg;

	while (access(file, F_OK) != 0)
		usleep(EVERY);
	list = fopen(file, "a");
	pool = rte_mempool_lookup(POOL);
	if (list == NULL || pool == NULL)
		fprintf(stderr, "leaking: no %s\n", list == NULL ? file : POOL);
	else
		leak(file);
	return NULL;
}

RTE_INIT(begin)
{
	char *file = getenv("LEAKING");
	pthread_t thread;

	if (file != NULL && pthread_create(&thread, NULL, wait_and_leak, file) == 0)
		pthread_detach(thread);
}
