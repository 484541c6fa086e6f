/* guard_orders.c - what on the handler "mbufpool_guard" only a gate between two steps of a put brings
 * about: an object that one lcore frees while another does, in each order of their steps.
 *
 *     make guard_orders && ./guard_orders --no-huge -m 64 --no-pci --no-telemetry -l 0-1
 *
 * A put notes itself, and then asks the library. Here both lcores have looked before either has noted: the
 * first one's note is taken back as the second comes. The library is asked in each order, by workers that
 * keep what they put, that let it wait, or neither. Of two puts one is too many: it is refused, or what it took
 * from the other's list is found late, and told in one line. In the end each object has to be in its mempool
 * once.
 *
 * Then the library refuses some calls, for causes that no program should come to: what is contended has to
 * be tried again, and what isn't put for want of room is out still. And mempools of as many objects as the
 * handler takes in one list, one fewer, one more, and some more, and of few, are filled, got and put in one
 * list, after which another lcore has to get half of it, and all of few; and one of two chunks is filled, of
 * which each other address is refused.
 *
 * The handler is linked in, with --wrap, so that what the library is asked comes by here. */
#include <inttypes.h>
#include <pthread.h>
#include <stdbool.h>
#include <stdlib.h>

#include <rte_eal.h>
#include <rte_errno.h>
#include <rte_launch.h>
#include <rte_pause.h>

#include "guard_steps.h"
#include "mempool_guard.h"

#define POPULATION 63
#define MOST 1200

/* Ends the program unless this holds. */
#define MUST(what) \
	do { \
		if (!(what)) { \
			printf("guard_orders: %s, line %d: not so: %s\n", playing, __LINE__, #what); \
			exit(1); \
		} \
	} while (0)

static char playing[128] = "the beginning";
static struct rte_mempool *mp;
static unsigned int other_lcore;

/* ---- what the library is asked ---- */

enum { NOBODY, MAIN, OTHER };

static bool is_gated;
static unsigned int at_gate[3], is_open[3], is_done[3]; /* of the main lcore, and of the other */
static unsigned int of_calls;		    /* one of so many is refused, or none */
static uint32_t cause_of_puts;

uint32_t __real_mbufpool_guard_put_one(struct mbufpool_guard *worker, uint32_t element);
uint32_t __wrap_mbufpool_guard_put_one(struct mbufpool_guard *worker, uint32_t element);
uint32_t __real_mbufpool_guard_put(struct mbufpool_guard *worker, const uint32_t *list, size_t n,
	uint64_t *taken);
uint32_t __wrap_mbufpool_guard_put(struct mbufpool_guard *worker, const uint32_t *list, size_t n,
	uint64_t *taken);
uint32_t __real_mbufpool_guard_get_one(struct mbufpool_guard *worker, uint32_t *out);
uint32_t __wrap_mbufpool_guard_get_one(struct mbufpool_guard *worker, uint32_t *out);
uint32_t __real_mbufpool_guard_get(struct mbufpool_guard *worker, uint32_t *out, size_t n);
uint32_t __wrap_mbufpool_guard_get(struct mbufpool_guard *worker, uint32_t *out, size_t n);

static void
tell(unsigned int *what)
{
	__atomic_store_n(what, 1, __ATOMIC_SEQ_CST);
}

static void
wait_for(const unsigned int *what)
{
	while (__atomic_load_n(what, __ATOMIC_SEQ_CST) == 0)
		rte_pause();
}

static uint32_t
put_behind_gate(struct mbufpool_guard *worker, uint32_t element)
{
	unsigned int who = rte_lcore_id() == rte_get_main_lcore() ? MAIN : OTHER;
	uint32_t cause;

	tell(&at_gate[who]);
	wait_for(&is_open[who]);
	cause = __real_mbufpool_guard_put_one(worker, element);
	tell(&is_done[who]);
	return cause;
}

static bool
refuses(void)
{
	static unsigned int calls;

	return of_calls != 0 && ++calls % of_calls == 0;
}

uint32_t
__wrap_mbufpool_guard_put_one(struct mbufpool_guard *worker, uint32_t element)
{
	if (is_gated)
		return put_behind_gate(worker, element);
	return refuses() ? cause_of_puts : __real_mbufpool_guard_put_one(worker, element);
}

/* (a list is put as far as it comes) */
uint32_t
__wrap_mbufpool_guard_put(struct mbufpool_guard *worker, const uint32_t *list, size_t n, uint64_t *taken)
{
	if (!refuses())
		return __real_mbufpool_guard_put(worker, list, n, taken);
	MUST(__real_mbufpool_guard_put(worker, list, n / 2, taken) == 0 && *taken == n / 2);
	return cause_of_puts;
}

uint32_t
__wrap_mbufpool_guard_get_one(struct mbufpool_guard *worker, uint32_t *out)
{
	return refuses() ? MBUFPOOL_CONTENDED : __real_mbufpool_guard_get_one(worker, out);
}

uint32_t
__wrap_mbufpool_guard_get(struct mbufpool_guard *worker, uint32_t *out, size_t n)
{
	return refuses() ? MBUFPOOL_CONTENDED : __real_mbufpool_guard_get(worker, out, n);
}

/* ---- the other lcore ---- */

/* What it does, it does between two meetings: EAL's own waiting isn't seen by a thread sanitizer, which
 * DPDK's libraries aren't built with. */
static struct {
	lcore_function_t *what;
	void *with;
	unsigned int met;
} errand;

static void
meet(void)
{
	__atomic_add_fetch(&errand.met, 1, __ATOMIC_SEQ_CST);
}

static int
run_errand(void *arg)
{
	RTE_SET_USED(arg);
	meet();
	errand.what(errand.with);
	meet();
	return 0;
}

static void
begin_on_other(lcore_function_t *what, void *with)
{
	errand.what = what;
	errand.with = with;
	meet();
	rte_eal_remote_launch(run_errand, NULL, other_lcore);
}

static void
wait_for_other(void)
{
	rte_eal_wait_lcore(other_lcore);
	meet();
}

/* ---- mempools ---- */

static void
begin_mempool(uint32_t size, const char *cache, const char *waiting)
{
	setenv("MBUFPOOL_GUARD_CACHE", cache, 1);
	setenv("MBUFPOOL_GUARD_QUARANTINE", waiting, 1);
	mp = rte_mempool_create_empty("orders", size, 64, 0, 0, SOCKET_ID_ANY, 0);
	MUST(mp != NULL && rte_mempool_set_ops_byname(mp, MBUFPOOL_GUARD_OPS, NULL) == 0);
	MUST(rte_mempool_populate_default(mp) == (int)size && rte_mempool_avail_count(mp) == size);
}

static struct {
	void *all[MOST];
	unsigned int n;
} found;

static int
get_rest(void *arg)
{
	RTE_SET_USED(arg);
	while (found.n < mp->size && rte_mempool_get(mp, &found.all[found.n]) == 0)
		found.n++;
	return 0;
}

static int
by_address(const void *a, const void *b)
{
	const char *x = *(char *const *)a, *y = *(char *const *)b;

	return (x > y) - (x < y);
}

/* Each object comes once, and as many are told as are in; so each lcore meets all that it keeps. */
static void
must_be_whole(uint32_t size)
{
	unsigned int i;
	void *more;

	found.n = 0;
	begin_on_other(get_rest, NULL);
	wait_for_other();
	get_rest(NULL);
	MUST(found.n == size && rte_mempool_get(mp, &more) != 0);
	qsort(found.all, found.n, sizeof(found.all[0]), by_address);
	for (i = 1; i < found.n; i++)
		MUST(found.all[i] != found.all[i - 1]);
	rte_mempool_put_bulk(mp, found.all, found.n);
	MUST(rte_mempool_avail_count(mp) == size);
}

/* ---- two puts ---- */

static int
put_object(void *object)
{
	rte_mempool_put(mp, object);
	return 0;
}

/* (the main lcore's note is taken back, as if this one had looked before it) */
static int
come_and_put(void *object)
{
	struct guard_pool *p = mp->pool_data;

	wait_for(&at_gate[MAIN]);
	write_now(&p->pasts[guard_element(p, object)].put, 0);
	return put_object(object);
}

/* Opens the gate once both have come, to the one and then to the other. */
static void *
open_gates(void *first)
{
	const unsigned int one = *(unsigned int *)first, two = MAIN + OTHER - one;

	wait_for(&at_gate[MAIN]);
	wait_for(&at_gate[OTHER]);
	tell(&is_open[one]);
	wait_for(&is_done[one]);
	tell(&is_open[two]);
	return NULL;
}

static void
puts_twice(unsigned int first, const char *cache, const char *waiting)
{
	struct guard_pool *p;
	pthread_t opener;
	void *object;

	snprintf(playing, sizeof(playing), "the %s lcore first, a cache of %s, %s waiting",
		first == MAIN ? "main" : "other", cache, waiting);
	begin_mempool(POPULATION, cache, waiting);
	p = mp->pool_data;
	MUST(rte_mempool_get(mp, &object) == 0);
	memset(at_gate, 0, sizeof(at_gate));
	memset(is_open, 0, sizeof(is_open));
	memset(is_done, 0, sizeof(is_done));
	is_gated = true;
	MUST(pthread_create(&opener, NULL, open_gates, &first) == 0);
	begin_on_other(come_and_put, object);
	put_object(object);
	wait_for_other();
	pthread_join(opener, NULL);
	is_gated = false;
	must_be_whole(POPULATION);
	guard_tell_late(p, &p->lcores[rte_get_main_lcore()]);
	guard_tell_late(p, &p->lcores[other_lcore]);
	printf("guard_orders: %s: %" PRIu64 " refused, %" PRIu64 " found late\n", playing, p->refused,
		p->late);
	MUST(p->refused + p->late == 1);
	rte_mempool_free(mp);
}

/* ---- what the library refuses, and lists ---- */

static bool
is_noted_out(const struct guard_pool *p, uint32_t element)
{
	return p->objects[element] != NULL && p->pasts[element].put == 0;
}

static void
refused(uint32_t cause, const char *name)
{
	struct guard_pool *p;
	unsigned int i, n, out;
	void *list[600];

	snprintf(playing, sizeof(playing), "calls refused: %s", name);
	begin_mempool(MOST, "64", "0");
	p = mp->pool_data;
	cause_of_puts = cause;
	of_calls = 7;
	for (i = 0; i < 10000; i++) {
		n = i % 2 == 0 ? 1 : i % 600;
		if (rte_mempool_get_bulk(mp, list, n) == 0)
			rte_mempool_put_bulk(mp, list, n);
	}
	of_calls = 0;
	for (i = 0, out = 0; i < p->places.next; i++)
		out += is_noted_out(p, i);
	MUST(p->refused == 0 && (out == 0) == (cause == MBUFPOOL_CONTENDED));
	MUST(p->is_fault_told == (cause != MBUFPOOL_CONTENDED) && rte_mempool_avail_count(mp) == MOST - out);
	for (i = 0; i < p->places.next; i++)
		if (is_noted_out(p, i))
			rte_mempool_put(mp, p->objects[i]);
	must_be_whole(MOST);
	MUST(p->refused == 0 && p->late == 0);
	rte_mempool_free(mp);
	printf("guard_orders: %s: %u objects weren't put, and are put later\n", playing, out);
}

/* What the main lcore put, the other gets: all of it from a small mempool, in whose magazines nothing stays, else
 * half. */
static void
must_be_there_for_other(uint32_t size)
{
	found.n = 0;
	begin_on_other(get_rest, NULL);
	wait_for_other();
	MUST(found.n >= (size < 32 * (rte_lcore_count() + 1) ? size : size / 2));
	rte_mempool_put_bulk(mp, found.all, found.n);
	must_be_whole(size);
}

static void
fills(uint32_t size)
{
	static void *all[MOST];

	snprintf(playing, sizeof(playing), "a mempool of %u objects", size);
	begin_mempool(size, "0", "0");
	must_be_whole(size);
	MUST(rte_mempool_get_bulk(mp, all, size + 1) != 0 && rte_mempool_avail_count(mp) == size);
	MUST(rte_mempool_get_bulk(mp, all, size) == 0 && rte_mempool_avail_count(mp) == 0);
	rte_mempool_put_bulk(mp, all, size);
	must_be_there_for_other(size);
	rte_mempool_free(mp);
}

/* A mempool of two chunks, of which each address is put that no object of the mempool has. */
static void
fills_in_parts(void)
{
	static char chunks[2][1 << 16] __rte_aligned(4096);
	unsigned int size = 0, i, k, others = 0;
	struct guard_pool *p;

	snprintf(playing, sizeof(playing), "a mempool of two chunks");
	mp = rte_mempool_create_empty("parts", MOST / 2, 64, 0, 0, SOCKET_ID_ANY, 0);
	MUST(mp != NULL && rte_mempool_set_ops_byname(mp, MBUFPOOL_GUARD_OPS, NULL) == 0);
	for (i = 0; i < 2; i++)
		size += rte_mempool_populate_iova(mp, chunks[1 - i], RTE_BAD_IOVA, sizeof(chunks[0]), NULL, NULL);
	p = mp->pool_data;
	MUST(size == MOST / 2 && p->places.nb_chunks == 2);
	must_be_whole(size);
	for (i = 0; i < 2; i++)
		for (k = 0; k < sizeof(chunks[0]); k += 8)
			if (guard_element(p, chunks[i] + k) == NO_PLACE) {
				rte_mempool_put(mp, chunks[i] + k);
				others++;
			}
	MUST(others == sizeof(chunks) / 8 - size && p->refused == others);
	must_be_whole(size);
	rte_mempool_free(mp);
}

int
main(int argc, char **argv)
{
	static const uint32_t sizes[] = { 1, 63, 95, 511, 512, 513, 1024, 1025 };
	static const char *const keeping[][2] = { { "0", "0" }, { "16", "0" }, { "0", "7" }, { "16", "7" } };
	unsigned int i;

	if (rte_eal_init(argc, argv) < 0)
		return 2;
	other_lcore = rte_get_next_lcore(-1, 1, 0);
	if (other_lcore == RTE_MAX_LCORE) {
		fprintf(stderr, "two lcores are needed\n");
		return 2;
	}
	for (i = 0; i < RTE_DIM(keeping); i++) {
		puts_twice(MAIN, keeping[i][0], keeping[i][1]);
		puts_twice(OTHER, keeping[i][0], keeping[i][1]);
	}
	refused(MBUFPOOL_CONTENDED, "contended");
	refused(MBUFPOOL_NO_MAGAZINE, "no magazine");
	refused(MBUFPOOL_HEAD_SPENT, "spent");
	for (i = 0; i < RTE_DIM(sizes); i++)
		fills(sizes[i]);
	fills_in_parts();
	printf("guard_orders: all as it should be\n");
	rte_eal_cleanup();
	return 0;
}
