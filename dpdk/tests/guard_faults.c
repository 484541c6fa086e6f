/* guard_faults.c - double frees and other faults on the handler "mbufpool_guard", and what is logged
 * of them.
 *
 *     make
 *     ./guard_faults PLAY [POOL [CACHE]] --no-huge -m 64 --no-pci -l 0-2 \
 *             -d $PWD/librte_mempool_mbufpool_guard.so
 *
 * Plays, of two lcores, here called one and two:
 *
 *   one-lcore     an mbuf is freed twice by one lcore
 *   two-lcores    freed by one lcore, and again by the other
 *   other-first   got by one lcore, freed by the other, and again by the one
 *   at-once       both free an mbuf at the same time, 5,000 times: each time one is refused, or found
 *                 later to have put what the other kept
 *   no-lcore      freed by one lcore, and again by a thread that is none
 *   got-again     freed by two, got again by two, and freed by one, who had it first: that isn't to be
 *                 seen, as the mbuf is out; then two frees it, which is refused, and names one
 *   early         freed by its owner, who gets another and frees the first again: what is put waits, so that
 *                 it isn't got again in between, where the environment has MBUFPOOL_GUARD_QUARANTINE
 *   late          1,000 of 101,000 packets are freed early, and again by their old owner up to 100 packets
 *                 later: whose free is refused, its own, or that of who got the mbuf meanwhile
 *   in-a-list     a list of eight mbufs has one twice: the other seven go back
 *   other-pool    an mbuf of another mempool
 *   no-object     a pointer into an mbuf, and one into nothing
 *   flood         an mbuf is freed 1,000 times too often
 *   leak          three places in the code get mbufs, and one of them frees none
 *   load          all lcores get, pass on over rings and free, and now and then free twice: as many
 *                 puts are refused, or found late, as were made too many
 *
 * In the end each lcore, and a thread that is none, gets what it can: each mbuf has to come once. */
#include <dlfcn.h>
#include <inttypes.h>
#include <pthread.h>
#include <stdio.h>
#include <stdlib.h>
#include <string.h>

#include <rte_eal.h>
#include <rte_errno.h>
#include <rte_launch.h>
#include <rte_lcore.h>
#include <rte_mbuf.h>
#include <rte_pause.h>
#include <rte_ring.h>

#include "mempool_guard.h"

#define POPULATION 63
#define MANY 4095
#define FLOOD 1000
#define AT_ONCE 5000
#define ROUNDS 100000
#define BULK 8

/* It is in the program where that is linked with the handler, and else in the plugin. */
#pragma weak mbufpool_guard_report

typedef int report(FILE *, const struct rte_mempool *);

static struct rte_mempool *pool, *other;
static unsigned int lcore_two;

/* Gets and frees stand in functions of their own, so that a line that is logged names them: with all
 * that they call in line, as a compiler may else make one rte_pktmbuf_free() for a whole file, and each
 * place is in that. Behind the call is what differs in each: the last call of a function may be a jump,
 * which leaves no trace, and functions that are alike may be made one. */
#define PLACE __rte_noinline __attribute__((flatten))
#define END_OF_PLACE __asm__ volatile("# place %0" : : "i"(__LINE__) : "memory")

PLACE struct rte_mbuf *
get_one(void)
{
	struct rte_mbuf *m = rte_pktmbuf_alloc(pool);

	END_OF_PLACE;
	return m;
}

PLACE void
free_one(struct rte_mbuf *m)
{
	rte_pktmbuf_free(m);
	END_OF_PLACE;
}

PLACE void
free_again(struct rte_mbuf *m)
{
	rte_pktmbuf_free(m);
	END_OF_PLACE;
}

PLACE void
put_strange(void *object)
{
	rte_mempool_put(pool, object);
	END_OF_PLACE;
}

static int
free_there(void *m)
{
	free_again(m);
	return 0;
}

/* (others may come first) */
static int
free_and_get(void *m)
{
	struct rte_mbuf *got[POPULATION];
	unsigned int n = 0;

	free_one(m);
	do
		got[n] = get_one();
	while (got[n] != m && got[n] != NULL && ++n < POPULATION);
	if (n == POPULATION || got[n] != m)
		printf("FAULT: it isn't got again\n");
	while (n > 0)
		free_one(got[--n]);
	return 0;
}

static int
free_own(void *m)
{
	free_one(m);
	return 0;
}

/* One lcore at a time works, or all meet here before and behind: EAL's own waiting isn't seen by a
 * thread sanitizer, which DPDK's libraries aren't built with. */
static void
meet(void)
{
	static unsigned int met;

	__atomic_add_fetch(&met, 1, __ATOMIC_SEQ_CST);
}

static struct {
	lcore_function_t *what;
	void *with;
} errand;

static int
run_errand(void *arg)
{
	RTE_SET_USED(arg);
	meet();
	errand.what(errand.with);
	meet();
	return 0;
}

static void
on_lcore(unsigned int lcore, lcore_function_t *what, void *with)
{
	errand.what = what;
	errand.with = with;
	meet();
	rte_eal_remote_launch(run_errand, NULL, lcore);
	rte_eal_wait_lcore(lcore);
	meet();
}

static void *
free_in_thread(void *m)
{
	free_again(m);
	return NULL;
}

/* ---- plays ---- */

static void
one_lcore(void)
{
	struct rte_mbuf *m = get_one();

	free_one(m);
	free_again(m);
	END_OF_PLACE;
}

static void
two_lcores(void)
{
	struct rte_mbuf *m = get_one();

	free_one(m);
	on_lcore(lcore_two, free_there, m);
}

static void
other_first(void)
{
	struct rte_mbuf *m = get_one();

	on_lcore(lcore_two, free_own, m);
	free_again(m);
	END_OF_PLACE;
}

static void
no_lcore(void)
{
	struct rte_mbuf *m = get_one();
	pthread_t thread;

	free_one(m);
	if (pthread_create(&thread, NULL, free_in_thread, m) == 0)
		pthread_join(thread, NULL);
}

static void
got_again(void)
{
	struct rte_mbuf *m = get_one();

	on_lcore(lcore_two, free_and_get, m);
	printf("freed by lcore one, while lcore two has it\n");
	fflush(stdout);
	free_again(m);
	printf("freed by lcore two\n");
	fflush(stdout);
	on_lcore(lcore_two, free_own, m);
}

static void
early(void)
{
	struct rte_mbuf *m = get_one(), *other;

	free_one(m);
	other = get_one();
	printf("%s mbuf was got\n", other == m ? "the same" : "another");
	fflush(stdout);
	free_again(m);
	free_one(other);
	END_OF_PLACE;
}

static void
in_a_list(void)
{
	struct rte_mbuf *list[BULK];
	unsigned int i;

	for (i = 0; i < BULK - 1; i++)
		list[i] = get_one();
	list[BULK - 1] = list[2];
	rte_mempool_put_bulk(pool, (void **)list, BULK);
	END_OF_PLACE;
}

static void
other_pool(void)
{
	struct rte_mbuf *m = rte_pktmbuf_alloc(other);

	put_strange(m);
	free_one(m);
}

static void
no_object(void)
{
	struct rte_mbuf *m = get_one();

	put_strange((char *)m + RTE_CACHE_LINE_SIZE);
	put_strange((void *)(uintptr_t)64);
	free_one(m);
}

static void
flood(void)
{
	struct rte_mbuf *m = get_one();
	unsigned int i;

	free_one(m);
	for (i = 0; i < FLOOD; i++)
		free_again(m);
}

/* ---- a leak, and what is told of it ---- */

PLACE struct rte_mbuf *
get_for_flow(void)
{
	struct rte_mbuf *m = rte_pktmbuf_alloc(pool);

	END_OF_PLACE;
	return m;
}

PLACE struct rte_mbuf *
get_and_forget(void)
{
	struct rte_mbuf *m = rte_pktmbuf_alloc(pool);

	END_OF_PLACE;
	return m;
}

static int
forget(void *leaked)
{
	unsigned int i;

	for (i = 0; i < 7; i++)
		((struct rte_mbuf **)leaked)[i] = get_and_forget();
	return 0;
}

static report *
find_report(void)
{
	void *plugin;

	if (mbufpool_guard_report != NULL)
		return mbufpool_guard_report;
	plugin = dlopen("librte_mempool_mbufpool_guard.so", RTLD_NOW | RTLD_NOLOAD);
	return plugin != NULL ? (report *)(uintptr_t)dlsym(plugin, "mbufpool_guard_report") : NULL;
}

static void
tell(void)
{
	report *find = find_report();

	if (find == NULL || find(stdout, pool) != 0)
		printf("FAULT: no report\n");
}

static void
leak(void)
{
	struct rte_mbuf *kept[3], *leaked[7], *m;
	unsigned int i;

	for (i = 0; i < 3; i++)
		kept[i] = get_for_flow();
	m = get_one();
	on_lcore(lcore_two, forget, leaked);
	free_one(m);
	tell();
	fflush(stdout);
	if (getenv("GUARD_FAULTS_WAIT") != NULL)
		getchar();
	for (i = 0; i < 3; i++)
		free_one(kept[i]);
	for (i = 0; i < 7; i++)
		free_one(leaked[i]);
	tell();
}

/* ---- early frees, and late ones ---- */

#define IN_FLIGHT 32
#define EARLY 1000
#define LATEST 100 /* packets behind an early free, of which there is one for each so many, and one more */

/* Whether a free is refused, as only the handler says. (the mbuf is left alone) */
static int
is_refused(void *m)
{
	return rte_mempool_ops_enqueue_bulk(pool, &m, 1) != 0;
}

static void
late(void)
{
	void *in_flight[IN_FLIGHT] = { NULL }, *early = NULL, **slot;
	unsigned int i, due = 0, late_refused = 0, others_refused = 0;
	uint64_t random = 1;

	for (i = 0; i < EARLY * (LATEST + 1); i++) {
		if (i == due && early != NULL)
			late_refused += is_refused(early);
		slot = &in_flight[i % IN_FLIGHT];
		if (*slot != NULL)
			others_refused += is_refused(*slot);
		if (rte_mempool_get(pool, slot) != 0)
			rte_panic("no mbuf\n");
		if (i % (LATEST + 1) != 0)
			continue;
		random = random * UINT64_C(6364136223846793005) + 1442695040888963407;
		due = i + 1 + (random >> 33) % LATEST;
		early = *slot;
		others_refused += is_refused(early);
		*slot = NULL;
	}
	for (i = 0; i < IN_FLIGHT; i++)
		if (in_flight[i] != NULL)
			others_refused += is_refused(in_flight[i]);
	printf("of %u early frees the late one is refused %u times, and %u times another\n", EARLY,
		late_refused, others_refused);
	tell();
}

/* ---- what is found late ---- */

/* Gets all that it can and puts it back, so that it meets what it keeps; and some more, so that it is asked
 * for what it found. */
static int
meet_all(void *arg)
{
	static void *all[MANY + 1];
	unsigned int n = 0, i;

	RTE_SET_USED(arg);
	while (n <= pool->size && rte_mempool_get(pool, &all[n]) == 0)
		n++;
	for (i = 0; i < n; i++)
		rte_mempool_put(pool, all[i]);
	for (i = 0; i < 64; i++)
		if (rte_mempool_get(pool, &all[0]) == 0)
			rte_mempool_put(pool, all[0]);
	return 0;
}

static void
settle(void)
{
	unsigned int i;

	RTE_LCORE_FOREACH_WORKER (i)
		on_lcore(i, meet_all, NULL);
	meet_all(NULL);
}

/* Two lcores come here, and go on at once. */
static void
go_at_once(unsigned int round)
{
	static unsigned int arrived;

	__atomic_add_fetch(&arrived, 1, __ATOMIC_SEQ_CST);
	while (__atomic_load_n(&arrived, __ATOMIC_SEQ_CST) < 2 * round)
		rte_pause();
}

/* (by rte_mempool_put, which leaves the mbuf alone) */
static int
free_at_once(void *mbufs)
{
	unsigned int i;

	for (i = 0; i < AT_ONCE; i++) {
		go_at_once(2 * i + 1);
		rte_mempool_put(pool, *(void **)mbufs);
		go_at_once(2 * i + 2);
	}
	return 0;
}

static void
at_once(void)
{
	unsigned int i;
	void *m;

	meet();
	errand.what = free_at_once;
	errand.with = &m;
	rte_eal_remote_launch(run_errand, NULL, lcore_two);
	for (i = 0; i < AT_ONCE; i++) {
		if (rte_mempool_get(pool, &m) != 0)
			rte_panic("no mbuf\n");
		go_at_once(2 * i + 1);
		rte_mempool_put(pool, m);
		go_at_once(2 * i + 2);
	}
	rte_eal_wait_lcore(lcore_two);
	meet();
	settle();
	tell();
}

/* ---- a load ---- */

struct lcore {
	struct rte_ring *in, *out;
	uint64_t random, got, put;
} __rte_cache_aligned;

static struct lcore lcores[RTE_MAX_LCORE];
static unsigned int at_work;

static uint64_t
next_random(struct lcore *own)
{
	own->random ^= own->random << 13;
	own->random ^= own->random >> 7;
	own->random ^= own->random << 17;
	return own->random >> 16;
}

/* Puts by rte_mempool_put, which leaves the mbufs alone: what was put too often may be another's. */
static void
put_list(struct lcore *own, void **list, unsigned int n)
{
	unsigned int i;

	rte_mempool_put_bulk(pool, list, n);
	own->put += n;
	for (i = 0; i < n; i++)
		if (next_random(own) % 1000 == 0) {
			rte_mempool_put(pool, list[i]);
			own->put++;
		}
}

static int
work(void *arg)
{
	struct lcore *own = &lcores[rte_lcore_id()];
	void *list[BULK];
	unsigned int i, n;

	RTE_SET_USED(arg);
	meet();
	for (i = 0; i < ROUNDS; i++) {
		n = 1 + next_random(own) % BULK;
		if (rte_mempool_get_bulk(pool, list, n) == 0) {
			own->got += n;
			if (next_random(own) % 2 == 0 ||
				rte_ring_enqueue_bulk(own->out, list, n, NULL) == 0)
				put_list(own, list, n);
		}
		n = rte_ring_dequeue_burst(own->in, list, BULK, NULL);
		put_list(own, list, n);
	}
	__atomic_sub_fetch(&at_work, 1, __ATOMIC_SEQ_CST);
	do {
		i = __atomic_load_n(&at_work, __ATOMIC_SEQ_CST);
		n = rte_ring_dequeue_burst(own->in, list, BULK, NULL);
		put_list(own, list, n);
		rte_pause();
	} while (i > 0 || n > 0);
	meet();
	return 0;
}

static void
load(void)
{
	struct lcore *last = NULL, *first = NULL, *own;
	char name[RTE_RING_NAMESIZE];
	uint64_t got = 0, put = 0;
	unsigned int i;

	RTE_LCORE_FOREACH (i) {
		own = &lcores[i];
		own->random = 0x9e3779b97f4a7c15 * (i + 1);
		snprintf(name, sizeof(name), "to_%u", i);
		own->in = rte_ring_create(name, 256, SOCKET_ID_ANY, RING_F_SP_ENQ | RING_F_SC_DEQ);
		if (own->in == NULL)
			rte_panic("no ring\n");
		if (last == NULL)
			first = own;
		else
			last->out = own->in;
		last = own;
		at_work++;
	}
	last->out = first->in;
	meet();
	rte_eal_mp_remote_launch(work, NULL, CALL_MAIN);
	rte_eal_mp_wait_lcore();
	meet();
	RTE_LCORE_FOREACH (i) {
		got += lcores[i].got;
		put += lcores[i].put;
	}
	printf("got %" PRIu64 ", put %" PRIu64 ", too many %" PRIu64 "\n", got, put, put - got);
	settle();
	tell();
}

/* ---- the end ---- */

static struct {
	void *all[MANY + 1];
	unsigned int n;
} found;

static int
get_all(void *arg)
{
	RTE_SET_USED(arg);
	while (found.n <= pool->size && rte_mempool_get(pool, &found.all[found.n]) == 0)
		found.n++;
	return 0;
}

static void *
get_all_in_thread(void *arg)
{
	get_all(arg);
	return NULL;
}

static int
by_address(const void *a, const void *b)
{
	const char *x = *(char *const *)a, *y = *(char *const *)b;

	return (x > y) - (x < y);
}

/* Whether each mbuf is in the pool once. */
static int
is_whole(void)
{
	unsigned int i, again = 0, available = rte_mempool_avail_count(pool);
	pthread_t thread;

	RTE_LCORE_FOREACH_WORKER (i)
		on_lcore(i, get_all, NULL);
	get_all(NULL);
	if (pthread_create(&thread, NULL, get_all_in_thread, NULL) == 0)
		pthread_join(thread, NULL);
	qsort(found.all, found.n, sizeof(found.all[0]), by_address);
	for (i = 1; i < found.n; i++)
		again += found.all[i] == found.all[i - 1];
	printf("%u of %u mbufs are in the pool, %u of them twice, %u counted\n", found.n,
		pool->size, again, available);
	rte_mempool_put_bulk(pool, found.all, found.n);
	return found.n == pool->size && again == 0 && available == pool->size &&
		rte_mempool_avail_count(pool) == pool->size;
}

static const struct {
	const char *name;
	void (*play)(void);
	unsigned int population;
} plays[] = {
	{ "one-lcore", one_lcore, POPULATION },
	{ "two-lcores", two_lcores, POPULATION },
	{ "other-first", other_first, POPULATION },
	{ "at-once", at_once, MANY },
	{ "no-lcore", no_lcore, POPULATION },
	{ "got-again", got_again, POPULATION },
	{ "early", early, POPULATION },
	{ "late", late, MANY },
	{ "in-a-list", in_a_list, POPULATION },
	{ "other-pool", other_pool, POPULATION },
	{ "no-object", no_object, POPULATION },
	{ "flood", flood, POPULATION },
	{ "leak", leak, POPULATION },
	{ "load", load, MANY },
};

static struct rte_mempool *
open_pool(const char *name, unsigned int size, unsigned int cache)
{
	return rte_pktmbuf_pool_create_by_ops(
		name, size, cache, 0, 512, SOCKET_ID_ANY, MBUFPOOL_GUARD_OPS);
}

int
main(int argc, char **argv)
{
	const char *name = "mb0", *cache = "0";
	unsigned int k = 0;
	int words = 1, is_right;

	while (words < 4 && words < argc && argv[words][0] != '-')
		words++;
	while (words > 1 && k < RTE_DIM(plays) && strcmp(plays[k].name, argv[1]) != 0)
		k++;
	if (words == 1 || k == RTE_DIM(plays)) {
		fprintf(stderr, "usage: guard_faults PLAY [POOL [CACHE]] [EAL options]\n");
		return 2;
	}
	name = words > 2 ? argv[2] : name;
	cache = words > 3 ? argv[3] : cache;
	argv[words - 1] = argv[0];
	if (rte_eal_init(argc - words + 1, argv + words - 1) < 0)
		return 2;
	lcore_two = rte_get_next_lcore(-1, 1, 0);
	if (lcore_two == RTE_MAX_LCORE) {
		fprintf(stderr, "two lcores are needed\n");
		return 2;
	}
	pool = open_pool(name, plays[k].population, strtoul(cache, NULL, 10));
	other = open_pool("other", POPULATION, 0);
	if (pool == NULL || other == NULL) {
		fprintf(stderr, "no pool: %s\n", rte_strerror(rte_errno));
		return 2;
	}
	plays[k].play();
	is_right = is_whole();
	rte_mempool_free(pool);
	rte_mempool_free(other);
	rte_eal_cleanup();
	return !is_right;
}
