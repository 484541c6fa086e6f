/* two_threads.c - two threads get from one pool and put back, without a lock, each by a worker of its
 * own.
 *
 *     make two_threads && ./two_threads */
#include <pthread.h>
#include <stdio.h>

#include "mbufpool.h"

#define POPULATION 1000
#define BULK 8
#define ROUNDS 200000

struct turn {
	struct mbufpool_pool pool;
	unsigned long met;
};

static int holder[POPULATION]; /* how many threads have the value: never more than one */
static int twice;

static void *work(void *arg)
{
	struct turn *turn = (struct turn *)arg;
	uint64_t list[BULK];
	int round, k;

	for (round = 0; round < ROUNDS; round++) {
		if (mbufpool_pool_get(&turn->pool, list, BULK) != 0)
			continue;
		for (k = 0; k < BULK; k++)
			if (__atomic_fetch_add(&holder[list[k]], 1, __ATOMIC_SEQ_CST) != 0)
				__atomic_fetch_add(&twice, 1, __ATOMIC_SEQ_CST);
		for (k = 0; k < BULK; k++)
			__atomic_fetch_sub(&holder[list[k]], 1, __ATOMIC_SEQ_CST);
		while (mbufpool_pool_put(&turn->pool, list, BULK) == MBUFPOOL_CONTENDED)
			;
		turn->met++;
	}
	return NULL;
}

int main(void)
{
	struct turn first = { MBUFPOOL_NONE, 0 }, second = { MBUFPOOL_NONE, 0 };
	uint64_t value, of_first = 0, of_second = 0;
	uint32_t refused;
	pthread_t thread;

	if (mbufpool_pool_open(POPULATION, 2, 64, &first.pool) != 0 ||
		mbufpool_pool_split(&first.pool, &second.pool) != 0)
		return 1;
	for (value = 0; value < POPULATION; value++)
		if (mbufpool_pool_put_one(&first.pool, value) != 0)
			return 1;
	if (pthread_create(&thread, NULL, work, &second) != 0)
		return 1;
	work(&first);
	pthread_join(thread, NULL);
	mbufpool_pool_count(&first.pool, &of_first);
	mbufpool_pool_count(&second.pool, &of_second);
	printf("met %lu and %lu times, given twice %d, in the pool %lu of %u\n", first.met, second.met, twice,
		(unsigned long)(of_first + of_second), POPULATION);
	mbufpool_pool_end(&second.pool);
	mbufpool_pool_end(&first.pool);
	refused = mbufpool_pool_get_one(&first.pool, &value);
	printf("after its end a worker is refused: %s\n", mbufpool_strerror(refused));
	return twice != 0 || of_first + of_second != POPULATION || refused != MBUFPOOL_STRANGER;
}
