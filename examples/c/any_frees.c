/* any_frees.c - a guarded pool that is put anything, by threads: elements that this thread got, or another,
 * elements that were put before, and numbers that are none of the pool. It is done in three ways.
 *
 *   held    Each thread knows what is out with it, and puts that, or gives it to another thread to put. So
 *           each of these puts succeeds, no element is given to two, and a list stops at the number that
 *           was put before in it, or is none of the pool.
 *   freed   Each thread puts whatever number. Each put is refused, or what was put was got before, or it
 *           was with another worker, which tells it later as stale: of each element the puts that succeeded,
 *           and 1 if it is out, are as many as the gets and what was told.
 *   lists   The same by lists; a get of a list that is refused puts again what it had, which C doesn't see,
 *           so here the workers' counts are held against what is in the pool.
 *
 * At the end of each way what isn't out is given once, then what is out is put, and every element is given
 * once. What is refused, of openings, splits, gets and puts, changes nothing.
 *
 *     make any_frees && ./any_frees [CALLS [THREADS [SEED]]]    CALLS by each thread, 2,500,000 by default */
#include <pthread.h>
#include <stdio.h>
#include <stdlib.h>
#include <string.h>

#include "mbufpool.h"

#define MOST_THREADS 16
#define POPULATION 600
#define CACHE 32
#define FEW 6	 /* numbers in a list that is put in the first way: all stay at their worker for a while */
#define MOST 48	 /* numbers in a list */
#define PASSES 8 /* places over which elements pass to another thread */

enum way { HELD, FREED, LISTS };

struct thread {
	pthread_t id;
	uint64_t state;
	struct mbufpool_guard worker;
	unsigned long calls, succeeded, refused, empty, told;
	uint64_t got[POPULATION], put[POPULATION], stale[POPULATION];
	uint32_t seen[POPULATION], have; /* elements that it got, of which some were put since */
	unsigned char own[POPULATION];	 /* (first way) whether it got that itself */
};

static struct thread all_threads[MOST_THREADS];
static enum way way;
static unsigned char holder[POPULATION];
static uint32_t passing[PASSES]; /* elements + 1 */
static unsigned long calls = 2500000, seed = 1;
static unsigned threads = 4;

/* Ends the program unless this holds. */
#define MUST(what) \
	do { \
		if (!(what)) { \
			printf("line %d, way %d, seed %lu: not so: %s\n", __LINE__, (int)way, seed, #what); \
			exit(1); \
		} \
	} while (0)

static uint64_t next_number(struct thread *t)
{
	t->state ^= t->state << 13;
	t->state ^= t->state >> 7;
	t->state ^= t->state << 17;
	return t->state >> 11;
}

static uint32_t below(struct thread *t, uint32_t n)
{
	return (uint32_t)(next_number(t) % n);
}

/* A new pool's elements are out with its first worker, which puts what the pool is to have. */
static void put_all(struct mbufpool_guard *first, uint32_t n)
{
	uint32_t element;

	for (element = 0; element < n; element++)
		MUST(mbufpool_guard_put_one(first, element) == 0);
	MUST(mbufpool_guard_flush(first) == 0);
}

/* ---- what is refused ---- */

static void meet_refusals(void)
{
	struct mbufpool_guard first = MBUFPOOL_NONE, second = MBUFPOOL_NONE, none = MBUFPOOL_NONE;
	uint32_t list[4] = { 7, 7, 7, 7 }, one = 7, kept;
	uint64_t taken = 99, count = 99, other = 99;

	MUST(mbufpool_guard_open(0, 0, 0, 1, 1, &first) == MBUFPOOL_BAD_POOL);
	MUST(mbufpool_guard_open(16777215, 0, 0, 1, 1, &first) == MBUFPOOL_BAD_POOL);
	MUST(mbufpool_guard_open(3, 513, 0, 1, 1, &first) == MBUFPOOL_BAD_POOL);
	MUST(mbufpool_guard_open(3, 0, 1048577, 1, 1, &first) == MBUFPOOL_BAD_POOL);
	MUST(mbufpool_guard_open(3, 0, 0, 0, 1, &first) == MBUFPOOL_BAD_POOL);
	MUST(mbufpool_guard_open(3, 0, 0, 1025, 1, &first) == MBUFPOOL_BAD_POOL);
	MUST(mbufpool_guard_open(3, 0, 0, 1, 0, &first) == MBUFPOOL_BAD_POOL);
	MUST(mbufpool_guard_open(3, 0, 0, 1, 1000001, &first) == MBUFPOOL_BAD_POOL);
	/* one magazine more than a depot has */
	MUST(mbufpool_guard_open(8387840, 0, 0, 1, 1, &first) == MBUFPOOL_BAD_POOL && first.at == NULL);

	MUST(mbufpool_guard_open(3, 2, 0, 2, 10, &first) == 0);
	MUST(mbufpool_guard_split(&none, &second) == MBUFPOOL_STRANGER && second.at == NULL);
	MUST(mbufpool_guard_split(&first, &second) == 0);
	/* a worker of each is all that the pool has, and only its first makes others */
	MUST(mbufpool_guard_split(&first, &none) == MBUFPOOL_STRANGER && none.at == NULL);
	MUST(mbufpool_guard_split(&second, &none) == MBUFPOOL_STRANGER && none.at == NULL);

	/* all are out with the first at the start, and none once they are put */
	MUST(mbufpool_guard_count(&first, &count) == 0 && count == (uint64_t)0 - 3);
	MUST(mbufpool_guard_get_one(&second, &one) == MBUFPOOL_NO_ENTRIES && one == 7);
	put_all(&first, 3);
	MUST(mbufpool_guard_put_one(&first, 0) == MBUFPOOL_NOT_OUT);
	MUST(mbufpool_guard_put_one(&second, 2) == MBUFPOOL_NOT_OUT);
	MUST(mbufpool_guard_put_one(&second, 3) == MBUFPOOL_NOT_OUT);
	MUST(mbufpool_guard_put_one(&second, UINT32_MAX) == MBUFPOOL_NOT_OUT);
	MUST(mbufpool_guard_count(&first, &count) == 0 && count == 0);

	MUST(mbufpool_guard_get(&first, list, 4) == MBUFPOOL_NO_ENTRIES);
	MUST(mbufpool_guard_get(&first, list, 0) == 0);
	MUST(mbufpool_guard_flush(&first) == 0);
	MUST(mbufpool_guard_get(&second, list, 3) == 0);
	MUST(mbufpool_guard_get_one(&first, &one) == MBUFPOOL_NO_ENTRIES && one == 7);
	MUST(mbufpool_guard_count(&second, &count) == 0 && count == (uint64_t)0 - 3);

	/* a list stops at the first that isn't out */
	list[3] = list[2];
	kept = list[0];
	MUST(mbufpool_guard_put(&first, list, 0, &taken) == 0 && taken == 0);
	MUST(mbufpool_guard_put(&second, list + 1, 3, &taken) == MBUFPOOL_NOT_OUT && taken == 2);
	MUST(mbufpool_guard_put(&second, list + 1, 2, &taken) == MBUFPOOL_NOT_OUT && taken == 0);

	/* what the second put and keeps the first puts again: the second finds it stale, and tells it once */
	MUST(mbufpool_guard_put_one(&first, list[2]) == 0);
	MUST(mbufpool_guard_put_one(&first, list[2]) == MBUFPOOL_NOT_OUT);
	MUST(mbufpool_guard_stale(&second, &one) == MBUFPOOL_NO_ENTRIES && one == 7);
	MUST(mbufpool_guard_flush(&second) == 0);
	MUST(mbufpool_guard_stale(&second, &one) == 0 && one == list[2]);
	MUST(mbufpool_guard_stale(&second, &one) == MBUFPOOL_NO_ENTRIES && one == list[2]);
	MUST(mbufpool_guard_stale(&first, &one) == MBUFPOOL_NO_ENTRIES);
	MUST(mbufpool_guard_count(&first, &count) == 0 && mbufpool_guard_count(&second, &other) == 0);
	MUST(3 + count + other == 2);

	/* what one got another puts, once; its worker is ended by then */
	mbufpool_guard_end(&second);
	MUST(second.at == NULL);
	MUST(mbufpool_guard_put_one(&first, kept) == 0);
	MUST(mbufpool_guard_put_one(&first, kept) == MBUFPOOL_NOT_OUT);
	MUST(mbufpool_guard_get(&first, list, 3) == 0);
	MUST(list[0] != list[1] && list[0] != list[2] && list[1] != list[2]);
	MUST(mbufpool_guard_get_one(&first, &one) == MBUFPOOL_NO_ENTRIES);
	mbufpool_guard_end(&first);
	MUST(mbufpool_guard_get_one(&first, &one) == MBUFPOOL_STRANGER);

	/* what waits isn't given while there are others, and then the one that was put first */
	MUST(mbufpool_guard_open(3, 0, 2, 1, 10, &first) == 0);
	put_all(&first, 3);
	MUST(mbufpool_guard_get(&first, list, 2) == 0);
	MUST(mbufpool_guard_put(&first, list, 2, &taken) == 0 && taken == 2);
	MUST(mbufpool_guard_get_one(&first, &one) == 0 && one != list[0] && one != list[1]);
	MUST(mbufpool_guard_put_one(&first, list[1]) == MBUFPOOL_NOT_OUT);
	MUST(mbufpool_guard_get_one(&first, &one) == 0 && one == list[0]);
	MUST(mbufpool_guard_get_one(&first, &one) == 0 && one == list[1]);
	mbufpool_guard_end(&first);
}

/* ---- what threads do ---- */

/* What was found stale, as far as it is found by now. */
static void ask(struct thread *t)
{
	uint32_t element;

	while (mbufpool_guard_stale(&t->worker, &element) == 0) {
		MUST(way != HELD && element < POPULATION);
		t->stale[element]++;
		t->told++;
	}
}

static int is_refused(struct thread *t, uint32_t status)
{
	if (status == 0)
		return 0;
	MUST(status == MBUFPOOL_NO_ENTRIES || status == MBUFPOOL_CONTENDED);
	t->empty++;
	return 1;
}

static void get_some(struct thread *t)
{
	uint32_t out[MOST], n = below(t, 4) ? below(t, FEW) : below(t, MOST + 1), k;

	if (way == HELD && n > POPULATION / threads - t->have)
		return;
	if (way == FREED || below(t, 2)) {
		n = 1;
		if (is_refused(t, mbufpool_guard_get_one(&t->worker, out)))
			return;
	} else if (is_refused(t, mbufpool_guard_get(&t->worker, out, n)))
		return;
	for (k = 0; k < n; k++) {
		MUST(out[k] < POPULATION);
		t->got[out[k]]++;
		if (way != HELD) {
			t->seen[t->have++ % POPULATION] = out[k];
			continue;
		}
		MUST(__atomic_exchange_n(&holder[out[k]], 1, __ATOMIC_SEQ_CST) == 0);
		t->own[t->have] = 1;
		t->seen[t->have++] = out[k];
	}
}

/* (the first way) Takes an element from among those that it has. */
static uint32_t take_any(struct thread *t, unsigned char *own)
{
	uint32_t at = below(t, t->have), element = t->seen[at];

	*own = t->own[at];
	t->seen[at] = t->seen[--t->have];
	t->own[at] = t->own[t->have];
	return element;
}

/* Gives one of its elements to another thread, for one of another's, or for none. */
static void pass_one(struct thread *t)
{
	uint32_t *place = &passing[below(t, PASSES)], element = 0;
	unsigned char own;

	if (t->have && below(t, 2))
		element = take_any(t, &own) + 1;
	element = __atomic_exchange_n(place, element, __ATOMIC_SEQ_CST);
	if (element) {
		t->own[t->have] = 0;
		t->seen[t->have++] = element - 1;
	}
}

/* (the first way) Puts some of what it has; behind these perhaps one of them once more, which is with this
 * worker still, or a number that is none of the pool, and behind that whatever number. */
static void put_held(struct thread *t)
{
	uint32_t list[FEW + 2], n = below(t, FEW + 1), k, again = POPULATION, count, status;
	unsigned char own;
	uint64_t taken = 99;

	if (n > t->have)
		n = t->have;
	for (k = 0; k < n; k++) {
		list[k] = take_any(t, &own);
		if (own)
			again = list[k];
		MUST(__atomic_exchange_n(&holder[list[k]], 0, __ATOMIC_SEQ_CST) == 1);
		t->put[list[k]]++;
	}
	if (n == 1 && below(t, 2)) {
		MUST(mbufpool_guard_put_one(&t->worker, list[0]) == 0);
		return;
	}
	list[n] = below(t, 2) ? again : POPULATION + below(t, 1000);
	list[n + 1] = below(t, POPULATION);
	count = below(t, 2) ? n : n + 2;
	status = mbufpool_guard_put(&t->worker, list, count, &taken);
	MUST(taken == n && status == (count == n ? 0 : (uint32_t)MBUFPOOL_NOT_OUT));
	t->succeeded += n;
	t->refused += count != n;
}

/* A number that is likely to be out, or any element, or any number. */
static uint32_t any(struct thread *t)
{
	uint32_t have = t->have < POPULATION ? t->have : POPULATION;

	switch (below(t, 8)) {
	case 0: return below(t, POPULATION);
	case 1: return (uint32_t)next_number(t);
	case 2: return POPULATION + below(t, 2);
	default: return have ? t->seen[below(t, have)] : 0;
	}
}

static void put_any(struct thread *t)
{
	uint32_t list[MOST], n = below(t, 4) ? below(t, FEW) : below(t, MOST + 1), k, status;
	uint64_t taken = 99;

	for (k = 0; k < n; k++)
		list[k] = any(t);
	if (n == 1) {
		status = mbufpool_guard_put_one(&t->worker, list[0]);
		taken = status == 0;
	} else
		status = mbufpool_guard_put(&t->worker, list, n, &taken);
	MUST(status == 0 ? taken == n : taken < n);
	MUST(status == 0 || status == MBUFPOOL_NOT_OUT || status == MBUFPOOL_CONTENDED);
	t->refused += status != 0;
	t->succeeded += taken;
	for (k = 0; k < taken; k++) {
		MUST(list[k] < POPULATION);
		t->put[list[k]]++;
	}
}

static void *run(void *arg)
{
	struct thread *t = (struct thread *)arg;

	for (; t->calls < calls; t->calls++) {
		switch (below(t, 16)) {
		case 0:
			ask(t);
			if (below(t, 16) == 0)
				MUST(mbufpool_guard_flush(&t->worker) == 0);
			break;
		case 1:
			if (way == HELD) {
				pass_one(t);
				break;
			}
			/* fall through */
		case 2:
		case 3:
		case 4:
		case 5:
		case 6:
		case 7: get_some(t); break;
		default:
			if (way == HELD)
				put_held(t);
			else
				put_any(t);
		}
		ask(t);
	}
	return NULL;
}

/* ---- what must be so at the end ---- */

/* Gets all that is in the pool by its first worker, each once, and says how many. */
static uint32_t get_all(unsigned char *met)
{
	uint32_t count = 0, element, status;

	memset(met, 0, POPULATION);
	while ((status = mbufpool_guard_get_one(&all_threads[0].worker, &element)) == 0) {
		MUST(element < POPULATION && !met[element]);
		met[element] = 1;
		count++;
	}
	MUST(status == MBUFPOOL_NO_ENTRIES);
	return count;
}

static void compare(void)
{
	unsigned char met[POPULATION], again[POPULATION];
	uint64_t in_pool = POPULATION, count, got, put, stale;
	uint32_t n, k;
	unsigned i;

	for (i = 0; i < threads; i++) {
		MUST(mbufpool_guard_flush(&all_threads[i].worker) == 0);
		ask(&all_threads[i]);
	}
	for (i = 0; i < threads; i++) {
		MUST(mbufpool_guard_count(&all_threads[i].worker, &count) == 0);
		in_pool += count;
	}
	for (i = 1; i < threads; i++)
		mbufpool_guard_end(&all_threads[i].worker);
	n = get_all(met);
	MUST(n == in_pool);
	for (k = 0; k < POPULATION; k++) {
		for (i = 0, got = put = stale = 0; i < threads; i++) {
			got += all_threads[i].got[k];
			put += all_threads[i].put[k];
			stale += all_threads[i].stale[k];
		}
		if (way != LISTS)
			MUST(put + !met[k] == got + stale);
		if (way == HELD)
			MUST(stale == 0 && met[k] == !holder[k]);
	}
	/* what wasn't given is out, by whichever worker, and what was given too */
	for (k = 0; k < POPULATION; k++) {
		MUST(mbufpool_guard_put_one(&all_threads[0].worker, k) == 0);
		MUST(mbufpool_guard_put_one(&all_threads[0].worker, k) == MBUFPOOL_NOT_OUT);
	}
	MUST(get_all(again) == POPULATION);
	mbufpool_guard_end(&all_threads[0].worker);
	MUST(mbufpool_guard_get_one(&all_threads[0].worker, &k) == MBUFPOOL_STRANGER);
}

static void play(enum way which, uint32_t cache, uint32_t waiting)
{
	static const char *const names[] = { "held", "freed", "lists" };
	unsigned long succeeded = 0, refused = 0, empty = 0, told = 0;
	unsigned i;

	way = which;
	memset(holder, 0, sizeof(holder));
	memset(passing, 0, sizeof(passing));
	memset(all_threads, 0, sizeof(all_threads));
	for (i = 0; i < threads; i++) {
		struct thread *t = &all_threads[i];

		t->state = 0x9e3779b97f4a7c15u * (seed * MOST_THREADS + i + 1);
		MUST((i == 0 ? mbufpool_guard_open(POPULATION, cache, waiting, threads, 1000000, &t->worker)
			     : mbufpool_guard_split(&all_threads[0].worker, &t->worker)) == 0);
	}
	put_all(&all_threads[0].worker, POPULATION);
	for (i = 0; i < threads; i++)
		MUST(pthread_create(&all_threads[i].id, NULL, run, &all_threads[i]) == 0);
	for (i = 0; i < threads; i++)
		MUST(pthread_join(all_threads[i].id, NULL) == 0);
	compare();
	for (i = 0; i < threads; i++) {
		succeeded += all_threads[i].succeeded;
		refused += all_threads[i].refused;
		empty += all_threads[i].empty;
		told += all_threads[i].told;
	}
	printf("%s: %lu calls by %u threads, each keeps %u and lets %u wait: %lu numbers put, %lu puts refused, "
	       "%lu told as stale, %lu gets found too few\n", names[way], calls * threads, threads, cache, waiting,
		succeeded, refused, told, empty);
}

int main(int argc, char **argv)
{
	if (argc > 1)
		calls = strtoul(argv[1], NULL, 10);
	if (argc > 2)
		threads = (unsigned)strtoul(argv[2], NULL, 10);
	if (argc > 3)
		seed = strtoul(argv[3], NULL, 10);
	MUST(threads >= 1 && threads <= MOST_THREADS);
	meet_refusals();
	play(HELD, CACHE, 0);
	play(HELD, CACHE, 20);
	play(FREED, CACHE, 0);
	play(FREED, 0, 20);
	play(LISTS, CACHE, 20);
	return 0;
}
