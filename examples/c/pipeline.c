/* pipeline.c - one thread gets objects from a pool, another does something with them, and a third puts
 * them back, each by a worker of its own, without a lock: what a pipeline over several lcores does. The
 * thread that gets ends its worker while the others still have what it got.
 *
 *     make pipeline && ./pipeline [OBJECTS] */
#include <pthread.h>
#include <sched.h>
#include <stdio.h>
#include <stdlib.h>

#include "mbufpool.h"

#define POPULATION 4096
#define BULK 32
#define SLOTS 16 /* lists that lie between two threads */

/* What the pool has is the address of each object. */
struct object {
	int stage; /* which stage has it, or 0 */
	unsigned long load; /* in plain accesses */
};

/* A ring between two threads: a list in each slot, which one thread fills and the other empties. */
struct ring {
	uint64_t list[SLOTS][BULK];
	unsigned long sent, taken;
};

struct stage {
	struct mbufpool_pool pool;
	struct ring *from, *to;
	unsigned long lists, wrong;
	uint64_t count; /* what its worker has put less what it got */
};

static struct object objects[POPULATION];

static uint64_t value_of(struct object *it)
{
	return (uint64_t)(uintptr_t)it;
}

static struct object *object_of(uint64_t value)
{
	return (struct object *)(uintptr_t)value;
}

static void send_list(struct ring *r, const uint64_t *list)
{
	unsigned long at = __atomic_load_n(&r->sent, __ATOMIC_RELAXED);
	int k;

	while (at - __atomic_load_n(&r->taken, __ATOMIC_SEQ_CST) == SLOTS)
		sched_yield();
	for (k = 0; k < BULK; k++)
		r->list[at % SLOTS][k] = list[k];
	__atomic_store_n(&r->sent, at + 1, __ATOMIC_SEQ_CST);
}

static void take_list(struct ring *r, uint64_t *list)
{
	unsigned long at = __atomic_load_n(&r->taken, __ATOMIC_RELAXED);
	int k;

	while (__atomic_load_n(&r->sent, __ATOMIC_SEQ_CST) == at)
		sched_yield();
	for (k = 0; k < BULK; k++)
		list[k] = r->list[at % SLOTS][k];
	__atomic_store_n(&r->taken, at + 1, __ATOMIC_SEQ_CST);
}

static void passes(struct stage *s, const uint64_t *list, int from, int to)
{
	int k, was;

	for (k = 0; k < BULK; k++) {
		was = __atomic_exchange_n(&object_of(list[k])->stage, to, __ATOMIC_SEQ_CST);
		s->wrong += was != from;
	}
}

static void *get_stage(void *arg)
{
	struct stage *s = (struct stage *)arg;
	uint64_t list[BULK];
	uint32_t cause;
	unsigned long n;
	int k;

	for (n = 0; n < s->lists; n++) {
		while ((cause = mbufpool_pool_get(&s->pool, list, BULK)) != 0) {
			s->wrong += cause != MBUFPOOL_NO_ENTRIES && cause != MBUFPOOL_CONTENDED;
			sched_yield();
		}
		passes(s, list, 0, 1);
		for (k = 0; k < BULK; k++)
			object_of(list[k])->load = n;
		send_list(s->to, list);
	}
	s->wrong += mbufpool_pool_count(&s->pool, &s->count) != 0;
	mbufpool_pool_end(&s->pool); /* what it got is still with the others */
	return NULL;
}

static void *work_stage(void *arg)
{
	struct stage *s = (struct stage *)arg;
	uint64_t list[BULK];
	unsigned long n;
	int k;

	for (n = 0; n < s->lists; n++) {
		take_list(s->from, list);
		passes(s, list, 1, 2);
		for (k = 0; k < BULK; k++)
			s->wrong += object_of(list[k])->load != n;
		send_list(s->to, list);
	}
	return NULL;
}

static void *put_stage(void *arg)
{
	struct stage *s = (struct stage *)arg;
	uint64_t list[BULK];
	uint32_t cause;
	unsigned long n;

	for (n = 0; n < s->lists; n++) {
		take_list(s->from, list);
		passes(s, list, 2, 0);
		while ((cause = mbufpool_pool_put(&s->pool, list, BULK)) != 0)
			s->wrong += cause != MBUFPOOL_CONTENDED;
	}
	s->wrong += mbufpool_pool_count(&s->pool, &s->count) != 0;
	return NULL;
}

/* Whether all objects can be had at once by this worker, each of them once. */
static int are_there(struct mbufpool_pool *pool)
{
	static uint64_t all[POPULATION];
	int k, once = 0;

	if (mbufpool_pool_get(pool, all, POPULATION) != 0)
		return 0;
	for (k = 0; k < POPULATION; k++)
		once += object_of(all[k])->stage++ == 0;
	return once == POPULATION;
}

int main(int argc, char **argv)
{
	static struct ring first, second;
	struct stage one = { MBUFPOOL_NONE, NULL, &first, 0, 0, 0 }, two = { MBUFPOOL_NONE, &first, &second, 0, 0, 0 },
		     three = { MBUFPOOL_NONE, &second, NULL, 0, 0, 0 };
	unsigned long wrong;
	pthread_t threads[2];
	int k, all;

	one.lists = (argc > 1 ? strtoul(argv[1], NULL, 10) : 4000000) / BULK;
	two.lists = three.lists = one.lists;
	if (mbufpool_pool_open(POPULATION, 2, 1000, &one.pool) != 0 ||
		mbufpool_pool_split(&one.pool, &three.pool) != 0)
		return 1;
	for (k = 0; k < POPULATION; k++)
		if (mbufpool_pool_put_one(&one.pool, value_of(&objects[k])) != 0)
			return 1;
	if (pthread_create(&threads[0], NULL, get_stage, &one) != 0 ||
		pthread_create(&threads[1], NULL, work_stage, &two) != 0)
		return 1;
	put_stage(&three);
	pthread_join(threads[0], NULL);
	pthread_join(threads[1], NULL);
	wrong = one.wrong + two.wrong + three.wrong;
	printf("%lu lists of %d went through, wrong %lu, by the counts %lu of %d are in the pool\n", three.lists,
		BULK, wrong, (unsigned long)(one.count + three.count), POPULATION);
	all = are_there(&three.pool);
	mbufpool_pool_end(&three.pool);
	return wrong != 0 || one.count + three.count != POPULATION || !all;
}
