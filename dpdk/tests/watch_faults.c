/* watch_faults.c - a program that passes packets through three stages, and does something wrong with one in
 * some thousand: what the handler "mbufpool_watch" has to tell of it.
 *
 *     make watch_faults
 *     ./watch_faults PLAY PACKETS ONE_IN [OPS [CACHE]] --no-huge -m 64 --no-pci -l 0 \
 *             -d $PWD/librte_mempool_mbufpool_watch.so
 *
 * The first stage gets mbufs, the second drops one in eight and passes the others on, and the third frees them.
 * Of one packet in ONE_IN
 *
 *   none      nothing is done wrong
 *   twice     the third stage frees it twice
 *   late      the second stage frees it and passes it on all the same; the third frees it, DELAY packets later
 *   written   the third stage frees it, and writes a byte to its data, DELAY packets later
 *   header    the same to its header: the length
 *   leaked    the second stage forgets it
 *
 * On one lcore the stages take turns of a thousand packets, so that with MBUFPOOL_WATCH_SEED a run is as the
 * one before; on three each stage has one. What was done wrong with a watched mbuf is counted; in the end, with
 * how many faults had been made when the first line came, it is
 *
 *     watch_faults: twice: 2000000 packets, 2000 faults, 21 of them on watched mbufs, the first line after 34
 *
 * WATCH_FAULTS_MBUFS in the environment is how many mbufs there are: with few the mempool runs dry again and
 * again. With WATCH_FAULTS_ON_WATCHED nothing is done wrong with others. Where nothing is then, and
 * nothing is leaked, each mbuf has to be in the pool once in the end. */
#define _GNU_SOURCE
#include <dlfcn.h>
#include <inttypes.h>
#include <stdio.h>
#include <stdlib.h>
#include <string.h>

#include <rte_cycles.h>
#include <rte_eal.h>
#include <rte_errno.h>
#include <rte_launch.h>
#include <rte_lcore.h>
#include <rte_log.h>
#include <rte_mbuf.h>
#include <rte_pause.h>
#include <rte_ring.h>

#include "mempool_watch.h"

#define MBUFS 16383
#define BURST 32
#define RING 1024
#define ROOM 2176
#define DELAY 2000
#define HELD 64 /* faults that wait for their end, at most */

#pragma weak mbufpool_watch_report

typedef int report(FILE *, const struct rte_mempool *);

static struct rte_mempool *pool;
static struct {
	struct rte_ring *ring;
	uint64_t in, out; /* packets that went in and out of it: the first by one stage, the other by the next */
} to_work, to_send;
static uint64_t packets, one_in;
static unsigned int nb_mbufs = MBUFS;
static const char *play;
static uint64_t faults, on_watched, faults_at_line; /* (the last: of the first line) */
static int is_received, is_worked; /* the stage has no more packets */
static int on_watched_alone;

/* Gets and frees stand in functions of their own, so that a line names them: guard_faults.c has more. */
#define PLACE __rte_noinline __attribute__((flatten))
#define END_OF_PLACE __asm__ volatile("# place %0" : : "i"(__LINE__) : "memory")

PLACE int
get_packets(struct rte_mbuf **m)
{
	int ret = rte_pktmbuf_alloc_bulk(pool, m, BURST);

	END_OF_PLACE;
	return ret;
}

PLACE void
free_sent(struct rte_mbuf *m)
{
	rte_pktmbuf_free(m);
	END_OF_PLACE;
}

PLACE void
free_again(struct rte_mbuf *m)
{
	rte_pktmbuf_free(m);
	END_OF_PLACE;
}

PLACE void
free_late(struct rte_mbuf *m)
{
	rte_pktmbuf_free(m);
	END_OF_PLACE;
}

PLACE void
free_early(struct rte_mbuf *m)
{
	rte_pktmbuf_free(m);
	END_OF_PLACE;
}

PLACE void
free_dropped(struct rte_mbuf *m)
{
	rte_pktmbuf_free(m);
	END_OF_PLACE;
}

PLACE void
free_and_write(struct rte_mbuf *m)
{
	rte_pktmbuf_free(m);
	END_OF_PLACE;
}

/* ---- packets, of which some have a mark: the last bit of the pointer ---- */

static int
is(const char *name)
{
	return strcmp(play, name) == 0;
}

static void *
marked(struct rte_mbuf *m)
{
	return (char *)m + 1;
}

static int
is_marked(const void *packet)
{
	return (uintptr_t)packet & 1;
}

static struct rte_mbuf *
mbuf_of(void *packet)
{
	return (struct rte_mbuf *)((uintptr_t)packet & ~(uintptr_t)1);
}

static void
count_fault(const struct rte_mbuf *m)
{
	__atomic_fetch_add(&faults, 1, __ATOMIC_RELAXED);
	on_watched += m->pool != pool;
}

/* (a ring's own count is read in a way that a thread sanitizer reports) */
#define HAS_ROOM(way) ((way).in - __atomic_load_n(&(way).out, __ATOMIC_ACQUIRE) + BURST < RING)

#define PASS(way, list, n)                                                             \
	do {                                                                           \
		rte_ring_enqueue_bulk((way).ring, list, n, NULL);                      \
		(way).in += n;                                                         \
	} while (0)

static unsigned int
take(struct rte_ring *ring, uint64_t *out, void **list)
{
	unsigned int n = rte_ring_dequeue_burst(ring, list, BURST, NULL);

	__atomic_fetch_add(out, n, __ATOMIC_RELEASE);
	return n;
}

/* ---- the stages: each does something, or says that it has nothing to do ---- */

static int
receive(void)
{
	static uint64_t received, next_fault;
	struct rte_mbuf *m[BURST];
	void *list[BURST];
	unsigned int i;

	if (next_fault == 0)
		next_fault = one_in / 2 + 1;
	if (received >= packets) {
		__atomic_store_n(&is_received, 1, __ATOMIC_RELEASE);
		return 0;
	}
	if (!HAS_ROOM(to_work) || get_packets(m) != 0)
		return 0;
	for (i = 0; i < BURST; i++) {
		m[i]->data_len = m[i]->pkt_len = 60;
		memcpy(rte_pktmbuf_mtod(m[i], char *), &received, sizeof(received));
		list[i] = m[i];
		if (++received >= next_fault && (!on_watched_alone || m[i]->pool != pool)) {
			list[i] = marked(m[i]);
			next_fault = received + one_in;
		}
	}
	PASS(to_work, list, BURST);
	return 1;
}

/* (what was freed too early isn't touched any more) */
static void *
work_at(void *packet)
{
	static unsigned int seen;
	struct rte_mbuf *m = mbuf_of(packet);

	if (!is_marked(packet)) {
		if (++seen % 8 != 0)
			return packet;
		free_dropped(m);
		return NULL;
	}
	if (is("late") || is("leaked"))
		count_fault(m);
	if (is("leaked"))
		return NULL;
	if (is("late"))
		free_early(m);
	return packet;
}

static int
work(void)
{
	int is_last = __atomic_load_n(&is_received, __ATOMIC_ACQUIRE);
	void *list[BURST];
	unsigned int n, i, kept = 0;

	if (!HAS_ROOM(to_send))
		return 0;
	n = take(to_work.ring, &to_work.out, list);
	for (i = 0; i < n; i++) {
		list[kept] = work_at(list[i]);
		kept += list[kept] != NULL;
	}
	PASS(to_send, list, kept);
	if (n == 0 && is_last)
		__atomic_store_n(&is_worked, 1, __ATOMIC_RELEASE);
	return n != 0;
}

static struct {
	struct {
		struct rte_mbuf *m;
		uint64_t at;
	} all[HELD];
	uint64_t first, end, sent;
} held;

static void
hold(struct rte_mbuf *m)
{
	if (held.end - held.first == HELD)
		rte_panic("too many faults at once\n");
	held.all[held.end % HELD].m = m;
	held.all[held.end++ % HELD].at = held.sent + DELAY;
}

static void
end_held(struct rte_mbuf *m)
{
	if (is("late"))
		free_late(m);
	else if (is("header"))
		m->data_len = 77;
	else
		((char *)m)[sizeof(*m) + RTE_PKTMBUF_HEADROOM + 100] = 0x55;
}

static void
end_all_held(uint64_t until)
{
	for (; held.first < held.end && held.all[held.first % HELD].at <= until; held.first++)
		end_held(held.all[held.first % HELD].m);
}

static void
send_wrongly(struct rte_mbuf *m)
{
	if (is("late")) {
		hold(m);
		return;
	}
	if (is("none")) {
		free_sent(m);
		return;
	}
	count_fault(m);
	if (is("twice")) {
		free_sent(m);
		free_again(m);
		return;
	}
	free_and_write(m);
	hold(m);
}

static int
send_packets(void)
{
	int is_last = __atomic_load_n(&is_worked, __ATOMIC_ACQUIRE);
	void *list[BURST];
	unsigned int n = take(to_send.ring, &to_send.out, list), i;

	for (i = 0; i < n; i++) {
		held.sent++;
		if (is_marked(list[i]))
			send_wrongly(mbuf_of(list[i]));
		else
			free_sent(list[i]);
	}
	end_all_held(n == 0 && is_last ? UINT64_MAX : held.sent);
	return n != 0 || !is_last;
}

/* ---- one lcore, or three ---- */

/* (EAL's own waiting isn't seen by a thread sanitizer: guard_faults.c) */
static void
meet(void)
{
	static unsigned int met;

	__atomic_add_fetch(&met, 1, __ATOMIC_SEQ_CST);
}

/* (each stage as long as it can, so that an lcore's cache runs empty and full) */
static void
run_alone(void)
{
	int is_over;

	do {
		while (receive())
			;
		while (work())
			;
		is_over = is_worked;
		while (send_packets() && to_send.in != to_send.out)
			;
	} while (!is_over);
	send_packets();
}

static int
run_receive(void *arg)
{
	RTE_SET_USED(arg);
	meet();
	while (!__atomic_load_n(&is_received, __ATOMIC_ACQUIRE))
		if (!receive())
			rte_pause();
	return 0;
}

static int
run_work(void *arg)
{
	RTE_SET_USED(arg);
	meet();
	while (!__atomic_load_n(&is_worked, __ATOMIC_ACQUIRE))
		if (!work())
			rte_pause();
	return 0;
}

static void
run_on_three(void)
{
	unsigned int one = rte_get_next_lcore(-1, 1, 0), two = rte_get_next_lcore(one, 1, 0);

	meet();
	rte_eal_remote_launch(run_receive, NULL, one);
	rte_eal_remote_launch(run_work, NULL, two);
	while (send_packets())
		rte_pause();
	rte_eal_mp_wait_lcore();
}

/* ---- what is told ---- */

/* Each line of the log goes to standard output. */
static ssize_t
write_log(void *cookie, const char *text, size_t n)
{
	RTE_SET_USED(cookie);
	if (faults_at_line == 0 && (memmem(text, n, "isn't out", 9) || memmem(text, n, "after its free", 14)))
		faults_at_line = __atomic_load_n(&faults, __ATOMIC_RELAXED);
	fwrite(text, 1, n, stdout);
	fflush(stdout);
	return n;
}

static void
tell(void)
{
	void *plugin = dlopen("librte_mempool_mbufpool_watch.so", RTLD_NOW | RTLD_NOLOAD);
	report *find = mbufpool_watch_report;

	if (find == NULL && plugin != NULL)
		find = (report *)(uintptr_t)dlsym(plugin, "mbufpool_watch_report");
	if (find != NULL && find(stdout, pool) != 0)
		printf("FAULT: no report\n");
}

static struct {
	void *all[MBUFS + 1];
	unsigned int n;
} found;

static int
get_all(void *arg)
{
	RTE_SET_USED(arg);
	meet();
	while (found.n <= MBUFS && rte_mempool_get(pool, &found.all[found.n]) == 0)
		found.n++;
	meet();
	return 0;
}

static int
by_address(const void *a, const void *b)
{
	const char *x = *(char *const *)a, *y = *(char *const *)b;

	return (x > y) - (x < y);
}

/* Whether each mbuf is in the pool once. */
static int
is_whole(void)
{
	unsigned int available = rte_mempool_avail_count(pool), again = 0, lcore, i;

	RTE_LCORE_FOREACH_WORKER (lcore) {
		meet();
		rte_eal_remote_launch(get_all, NULL, lcore);
		rte_eal_wait_lcore(lcore);
	}
	get_all(NULL);
	qsort(found.all, found.n, sizeof(found.all[0]), by_address);
	for (i = 1; i < found.n; i++)
		again += found.all[i] == found.all[i - 1];
	printf("%u of %u mbufs are in the pool, %u of them twice, %u counted\n", found.n, nb_mbufs, again,
		available);
	rte_mempool_put_bulk(pool, found.all, found.n);
	return found.n == nb_mbufs && again == 0 && available == nb_mbufs;
}

static int
plays(void)
{
	if (rte_lcore_count() >= 3)
		run_on_three();
	else
		run_alone();
	if (getenv("WATCH_FAULTS_WAIT") != NULL)
		rte_delay_us_sleep(1000 * strtoul(getenv("WATCH_FAULTS_WAIT"), NULL, 10));
	/* (what was written is told when the mbuf is got again) */
	if (!is("leaked") && ((!is("twice") && !is("late")) || on_watched_alone) && !is_whole())
		return 1;
	tell();
	printf("watch_faults: %s: %" PRIu64 " packets, %" PRIu64 " faults, %" PRIu64
	       " of them on watched mbufs, the first line after %" PRIu64 "\n",
		play, packets, faults, on_watched, faults_at_line);
	fflush(stdout);
	return 0;
}

static int
make_pool(const char *ops, unsigned int cache)
{
	pool = rte_pktmbuf_pool_create_by_ops("packets", nb_mbufs, cache, 0, ROOM, SOCKET_ID_ANY, ops);
	to_work.ring = rte_ring_create("to_work", RING, SOCKET_ID_ANY, RING_F_SP_ENQ | RING_F_SC_DEQ);
	to_send.ring = rte_ring_create("to_send", RING, SOCKET_ID_ANY, RING_F_SP_ENQ | RING_F_SC_DEQ);
	return pool != NULL && to_work.ring != NULL && to_send.ring != NULL;
}

int
main(int argc, char **argv)
{
	static const cookie_io_functions_t to_stdout = { .write = write_log };
	int words = 1, ret;

	while (words < argc && argv[words][0] != '-')
		words++;
	if (words < 4 || words > 6) {
		fprintf(stderr, "usage: watch_faults PLAY PACKETS ONE_IN [OPS [CACHE]] [EAL options]\n");
		return 2;
	}
	play = argv[1];
	on_watched_alone = getenv("WATCH_FAULTS_ON_WATCHED") != NULL;
	if (getenv("WATCH_FAULTS_MBUFS") != NULL)
		nb_mbufs = RTE_MIN(strtoul(getenv("WATCH_FAULTS_MBUFS"), NULL, 10), (unsigned long)MBUFS);
	packets = strtoull(argv[2], NULL, 10);
	one_in = strtoull(argv[3], NULL, 10);
	const char *ops = words > 4 ? argv[4] : MBUFPOOL_WATCH_OPS;
	unsigned int cache = words > 5 ? strtoul(argv[5], NULL, 10) : 256;

	argv[words - 1] = argv[0];
	if (rte_eal_init(argc - words + 1, argv + words - 1) < 0)
		return 2;
	FILE *log = fopencookie(NULL, "w", to_stdout);

	setvbuf(log, NULL, _IOLBF, 4096);
	rte_openlog_stream(log);
	if (!make_pool(ops, cache)) {
		fprintf(stderr, "no pool: %s\n", rte_strerror(rte_errno));
		return 2;
	}
	ret = plays();
	_Exit(ret);
}
