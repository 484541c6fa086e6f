/* running.c - a DPDK program that forwards packets until SIGTERM, and loses one now and then: what
 * mbufpool-dump is tried on.
 *
 *     make running
 *     ./running OPS [EAL options]
 *
 * OPS is the handler of its mempool, "packets". One lcore gets packets, of one mbuf or of two, each
 * of another length and offset; one passes them from a ring to the next, and keeps a clone of each
 * eighth until the next one comes; one frees them. Some four times a second the second one loses a
 * packet, of which the program writes `lost ELEM`, with its first segment: cut to 60 bytes, it begins
 * with "lost on the way,", and is of port 0 or 1. As often it writes `passed N`, the packets that were
 * freed, and `taken N`, the bytes of its heap that are taken. At SIGTERM the lcores stop, and the program
 * says whether each mbuf but the lost ones is in the mempool once.
 *
 * With FREES=twice in the environment it loses none, and frees one twice as often, one call behind the
 * other. With FREES=late it frees one once more as the second lcore has it again, in a packet that was got
 * since. Either is a line `freed twice ELEM`. CACHE=N is the size of the mempool's caches, in place of
 * 128. */
#include <errno.h>
#include <signal.h>
#include <stdio.h>
#include <stdlib.h>
#include <string.h>
#include <unistd.h>

#include <rte_eal.h>
#include <rte_errno.h>
#include <rte_launch.h>
#include <rte_lcore.h>
#include <rte_malloc.h>
#include <rte_mbuf.h>
#include <rte_ring.h>

#include "dump.h"

#define SIZE 4095
#define BURST 32
#define RING 256
#define CACHE 128
#define LENGTH 60
#define LOST "lost on the way,"
#define MOST_LOST 1000
#define LONGEST 120 /* seconds, whoever forgets it */

static struct rte_mempool *pool;
static struct rte_ring *to_pass, *to_free;
static volatile sig_atomic_t is_ended;
static int is_over, is_to_err; /* written by the one, read by the others */
static int frees_twice, frees_late;
static struct rte_mbuf *freed; /* that will be freed once more when it is met again */
static uint64_t passed;		/* packets that were freed */
static struct rte_mbuf *lost[MOST_LOST];
static unsigned int nb_lost;

/* (as an lcore that waits for packets from far away; the machine may have other work) */
static void
wait_a_moment(void)
{
	usleep(100);
}

static int
goes_on(void)
{
	return !__atomic_load_n(&is_over, __ATOMIC_ACQUIRE);
}

/* Makes a packet unlike each of the 980,000 before it, by the offset and length of its data. */
static struct rte_mbuf *
get_packet(uint32_t serial)
{
	struct rte_mbuf *m = rte_pktmbuf_alloc(pool), *tail;

	if (m == NULL)
		return NULL;
	m->port = serial % 2;
	m->data_off = serial / 1400 % 700;
	rte_pktmbuf_append(m, LENGTH + serial % 1400);
	tail = serial % 5 == 0 ? rte_pktmbuf_alloc(pool) : NULL;
	if (tail != NULL && rte_pktmbuf_chain(m, tail) != 0)
		rte_pktmbuf_free(tail);
	return m;
}

static int
get(void *arg)
{
	uint32_t serial = 0;
	struct rte_mbuf *m;
	unsigned int k;

	RTE_SET_USED(arg);
	for (; goes_on(); wait_a_moment())
		for (k = 0; k < BURST; k++) {
			m = get_packet(serial++);
			if (m != NULL && rte_ring_enqueue(to_pass, m) != 0)
				rte_pktmbuf_free(m);
		}
	return 0;
}

/* Whether it is time for what is wrong, once. */
static int
is_to_do_wrong(void)
{
	return __atomic_load_n(&is_to_err, __ATOMIC_RELAXED) &&
	       __atomic_exchange_n(&is_to_err, 0, __ATOMIC_RELAXED);
}

static void
tell_wrong(const char *what, const struct rte_mbuf *m)
{
	printf("%s %u\n", what, mbufpool_elem_of(pool, m));
	fflush(stdout);
}

/* Says which packet it was that nobody has any more. They are of one length, and begin alike. */
static int
is_lost(struct rte_mbuf *m)
{
	if (frees_twice || frees_late || nb_lost == MOST_LOST || !is_to_do_wrong())
		return 0;
	memcpy(rte_pktmbuf_mtod(m, char *), LOST, strlen(LOST));
	m->data_len = LENGTH;
	m->pkt_len = LENGTH;
	lost[nb_lost++] = m;
	tell_wrong("lost", m);
	return 1;
}

/* Frees a packet that was freed before, and that is another one's by now. */
static void
free_late(struct rte_mbuf *m)
{
	if (m != __atomic_load_n(&freed, __ATOMIC_ACQUIRE))
		return;
	__atomic_store_n(&freed, NULL, __ATOMIC_RELEASE);
	tell_wrong("freed twice", m);
	rte_pktmbuf_free(m);
}

static int
pass(void *arg)
{
	struct rte_mbuf *packets[BURST], *clone = NULL;
	unsigned int n, k;

	RTE_SET_USED(arg);
	for (; goes_on(); wait_a_moment()) {
		n = rte_ring_dequeue_burst(to_pass, (void **)packets, BURST, NULL);
		for (k = 0; k < n; k++) {
			if (is_lost(packets[k]))
				continue;
			free_late(packets[k]);
			if (k % 8 == 0) {
				rte_pktmbuf_free(clone);
				clone = rte_pktmbuf_clone(packets[k], pool);
			}
			if (rte_ring_enqueue(to_free, packets[k]) != 0)
				rte_pktmbuf_free(packets[k]);
		}
	}
	rte_pktmbuf_free(clone);
	return 0;
}

/* Frees a packet of its own, once or, as it is to, twice. */
static void
free_one(struct rte_mbuf *m)
{
	if (frees_late && is_to_do_wrong())
		__atomic_store_n(&freed, m, __ATOMIC_RELEASE);
	if (frees_twice && is_to_do_wrong()) {
		tell_wrong("freed twice", m);
		rte_pktmbuf_free(m);
	}
	rte_pktmbuf_free(m);
}

static int
free_all(void *arg)
{
	struct rte_mbuf *packets[BURST];
	unsigned int n;

	RTE_SET_USED(arg);
	for (; goes_on(); wait_a_moment()) {
		n = rte_ring_dequeue_burst(to_free, (void **)packets, BURST, NULL);
		if (n > 0)
			free_one(packets[0]);
		if (n > 1)
			rte_pktmbuf_free_bulk(&packets[1], n - 1);
		__atomic_fetch_add(&passed, n, __ATOMIC_RELAXED);
	}
	return 0;
}

/* ---- the end ---- */

static void
drain(struct rte_ring *r)
{
	void *packet = NULL;

	while (rte_ring_dequeue(r, &packet) == 0)
		rte_pktmbuf_free(packet);
}

static int
compare(const void *a, const void *b)
{
	uintptr_t p = *(const uintptr_t *)a, q = *(const uintptr_t *)b;

	return (p > q) - (p < q);
}

/* What is got in the end. */
static uintptr_t all[2 * SIZE];
static unsigned int nb_all;

/* Gets what the mempool gives this lcore. */
static int
get_all(void *arg)
{
	void *m;

	RTE_SET_USED(arg);
	while (nb_all < RTE_DIM(all) && rte_mempool_get_bulk(pool, &m, 1) == 0)
		all[nb_all++] = (uintptr_t)m;
	return 0;
}

/* How many different mbufs the caches and the common part of the mempool have together: each is got, by
 * one lcore after another, as no other can get what an lcore has for itself. */
static unsigned int
count_all(void)
{
	unsigned int lcore, i, differ = 0;

	RTE_LCORE_FOREACH (lcore)
		rte_mempool_cache_flush(rte_mempool_default_cache(pool, lcore), pool);
	get_all(NULL);
	RTE_LCORE_FOREACH_WORKER (lcore) {
		rte_eal_remote_launch(get_all, NULL, lcore);
		rte_eal_wait_lcore(lcore);
	}
	qsort(all, nb_all, sizeof(*all), compare);
	for (i = 0; i < nb_all; i++)
		differ += i == 0 || all[i] != all[i - 1];
	printf("got %u, of which %u are different\n", nb_all, differ);
	return nb_all == differ ? nb_all : 0;
}

/* Whether each mbuf that isn't lost is in the pool once. */
static int
is_as_it_should_be(void)
{
	unsigned int missing = 0, i;

	for (i = 0; i < nb_lost; i++)
		missing += lost[i]->nb_segs;
	return count_all() == SIZE - missing;
}

/* ---- all lcores ---- */

static void
note_end(int signal)
{
	RTE_SET_USED(signal);
	is_ended = 1;
}

static int
begin(void)
{
	static lcore_function_t *const work[] = {get, pass, free_all};
	unsigned int lcore, k = 0;

	RTE_LCORE_FOREACH_WORKER (lcore)
		if (k < RTE_DIM(work))
			rte_eal_remote_launch(work[k++], NULL, lcore);
	return k == RTE_DIM(work) ? 0 : -EINVAL;
}

/* Says how many packets were freed, and how much of the memory that it shares is taken. */
static void
tell(void)
{
	struct rte_malloc_socket_stats stats = {0};
	size_t taken = 0;
	int socket;

	for (socket = 0; socket < (int)rte_socket_count(); socket++)
		if (rte_malloc_get_socket_stats(rte_socket_id_by_idx(socket), &stats) == 0)
			taken += stats.heap_allocsz_bytes;
	printf("passed %" PRIu64 "\ntaken %zu\n", __atomic_load_n(&passed, __ATOMIC_RELAXED), taken);
	fflush(stdout);
}

static int
run(void)
{
	int ret = begin();

	if (ret != 0)
		fprintf(stderr, "running: three lcores besides the main one are needed\n");
	while (ret == 0 && !is_ended) {
		usleep(250000);
		__atomic_store_n(&is_to_err, 1, __ATOMIC_RELAXED);
		tell();
	}
	__atomic_store_n(&is_over, 1, __ATOMIC_RELEASE);
	rte_eal_mp_wait_lcore();
	drain(to_pass);
	drain(to_free);
	return ret != 0 || !is_as_it_should_be();
}

/* The size of the mempool's caches; and what it is to do wrong. */
static unsigned int
read_environment(void)
{
	const char *frees = getenv("FREES"), *cache = getenv("CACHE");

	frees_twice = frees != NULL && strcmp(frees, "twice") == 0;
	frees_late = frees != NULL && strcmp(frees, "late") == 0;
	return cache == NULL ? CACHE : strtoul(cache, NULL, 10);
}

int
main(int argc, char **argv)
{
	const char *ops = argc > 1 ? argv[1] : "";
	unsigned int cache = read_environment();
	int ret;

	if (argc < 2) {
		fprintf(stderr, "usage: running OPS [EAL options]\n");
		return 2;
	}
	argv[1] = argv[0];
	signal(SIGTERM, note_end);
	alarm(LONGEST);
	if (rte_eal_init(argc - 1, argv + 1) < 0)
		return 2;
	pool = rte_pktmbuf_pool_create_by_ops("packets", SIZE, cache, 0, RTE_MBUF_DEFAULT_BUF_SIZE,
					      SOCKET_ID_ANY, ops);
	to_pass = rte_ring_create("to_pass", RING, SOCKET_ID_ANY, RING_F_SP_ENQ | RING_F_SC_DEQ);
	to_free = rte_ring_create("to_free", RING, SOCKET_ID_ANY, RING_F_SP_ENQ | RING_F_SC_DEQ);
	if (pool == NULL || to_pass == NULL || to_free == NULL) {
		fprintf(stderr, "running: no pool on %s, or no rings: %s\n", ops,
			rte_strerror(rte_errno));
		return 2;
	}
	ret = run();
	printf(ret == 0 ? "as it should be\n" : "not as it should be\n");
	rte_eal_cleanup();
	return ret;
}
