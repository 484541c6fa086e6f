/* pipeline.c - one lcore gets the objects of a mempool and two others put them back: has each
 * object one holder at a time, and is none lost?
 *
 *     make pipeline
 *     ./pipeline OPS [OBJECTS [CACHE]] --no-huge -m 64 --no-pci -l 0-2 [-d PLUGIN]
 *
 * OPS is a mempool handler, OBJECTS how many are got in all (100000000), and CACHE what the cache
 * of an lcore keeps (0). The main lcore receives: it gets 1 to 32 objects at a time, writes into
 * each a serial number of its own, and passes them on over one of two rings. Behind each an lcore
 * sends: it takes 1 to 64 objects from the ring and puts them back. A fault is
 *
 *   - an object that is got while a flag in it says that it is out, or put while it isn't;
 *   - a serial number that didn't come through the rings, or came twice;
 *   - in the end, an object that no lcore can get, of which one after another gets what it can, or
 *     that can be got twice.
 *
 * An lcore that finds nothing to do yields its processor, so that lcores may share one. */
#include <inttypes.h>
#include <sched.h>
#include <stdatomic.h>
#include <stdio.h>
#include <stdlib.h>

#include <rte_cycles.h>
#include <rte_eal.h>
#include <rte_errno.h>
#include <rte_launch.h>
#include <rte_lcore.h>
#include <rte_mempool.h>
#include <rte_ring.h>

#define POPULATION 4096
#define MOST_GOT 32
#define MOST_PUT 64
#define SENDERS 2
#define PATIENCE 10 /* seconds without an object, after which the receiver ends */

struct object {
	uint64_t number;
	atomic_bool is_out;
};

static struct rte_mempool *pool;
static struct rte_ring *rings[SENDERS]; /* each with room for all objects */
static uint64_t nb_objects;
static atomic_ullong *is_seen; /* a bit for each serial number */
static atomic_bool is_all_sent;

/* What the lcores found, each of which adds to it in the end. */
static atomic_ullong got, got_twice, put_twice, seen, seen_twice;

static unsigned int
next_random(uint64_t *random, unsigned int most)
{
	*random ^= *random << 13;
	*random ^= *random >> 7;
	*random ^= *random << 17;
	return 1 + (*random >> 16) % most;
}

/* Gets n objects, or none where nobody puts any. */
static int
get_list(void **list, unsigned int n)
{
	uint64_t end = rte_get_timer_cycles() + PATIENCE * rte_get_timer_hz();

	while (rte_mempool_get_bulk(pool, list, n) != 0) {
		if (rte_get_timer_cycles() > end)
			return -1;
		sched_yield();
	}
	return 0;
}

/* Puts back what the lcore's cache keeps, which no other lcore can get. */
static void
flush_cache(void)
{
	struct rte_mempool_cache *cache = rte_mempool_default_cache(pool, rte_lcore_id());

	if (cache != NULL)
		rte_mempool_cache_flush(cache, pool);
}

static void
receive(void)
{
	uint64_t random = 1, number = 0, twice = 0;
	void *list[MOST_GOT];
	struct object *object;
	unsigned int i, n;

	while (number < nb_objects) {
		n = RTE_MIN(next_random(&random, MOST_GOT), nb_objects - number);
		if (get_list(list, n) != 0)
			break;
		for (i = 0; i < n; i++) {
			object = list[i];
			twice += atomic_exchange(&object->is_out, 1);
			object->number = number++;
		}
		rte_ring_enqueue_bulk(rings[next_random(&random, SENDERS) - 1], list, n, NULL);
	}
	flush_cache();
	got += number;
	got_twice += twice;
	is_all_sent = 1;
}

/* Whether a serial number is one of those that were written, and hasn't come before. */
static int
is_new(uint64_t number)
{
	unsigned long long bit = 1ull << number % 64;

	return number < nb_objects && !(atomic_fetch_or(&is_seen[number / 64], bit) & bit);
}

static int
send_back(void *ring)
{
	uint64_t random = 2 + rte_lcore_id(), all = 0, new = 0, twice = 0;
	void *list[MOST_PUT];
	struct object *object;
	unsigned int i, n;
	int is_last;

	do {
		is_last = is_all_sent;
		n = rte_ring_dequeue_burst(ring, list, next_random(&random, MOST_PUT), NULL);
		for (i = 0; i < n; i++) {
			object = list[i];
			new += is_new(object->number);
			twice += !atomic_exchange(&object->is_out, 0);
		}
		all += n;
		if (n > 0)
			rte_mempool_put_bulk(pool, list, n);
		else
			sched_yield();
	} while (n > 0 || !is_last);
	flush_cache();
	seen += new;
	seen_twice += all - new;
	put_twice += twice;
	return 0;
}

static void
init_object(struct rte_mempool *mp, void *opaque, void *object, unsigned int index)
{
	RTE_SET_USED(mp);
	RTE_SET_USED(opaque);
	RTE_SET_USED(index);
	((struct object *)object)->is_out = 0;
}

static int
make(const char *ops, unsigned int cache)
{
	char name[RTE_RING_NAMESIZE];
	unsigned int i;

	pool = rte_mempool_create_empty("pipeline", POPULATION, sizeof(struct object), cache, 0,
					SOCKET_ID_ANY, 0);
	if (pool == NULL || rte_mempool_set_ops_byname(pool, ops, NULL) != 0 ||
	    rte_mempool_populate_default(pool) != POPULATION)
		return -1;
	rte_mempool_obj_iter(pool, init_object, NULL);
	for (i = 0; i < SENDERS; i++) {
		snprintf(name, sizeof(name), "to_sender_%u", i);
		rings[i] = rte_ring_create(name, POPULATION, SOCKET_ID_ANY,
					   RING_F_SP_ENQ | RING_F_SC_DEQ | RING_F_EXACT_SZ);
		if (rings[i] == NULL)
			return -1;
	}
	is_seen = calloc(nb_objects / 64 + 1, sizeof(*is_seen));
	return is_seen != NULL ? 0 : -1;
}

static void
run_lcores(void)
{
	unsigned int lcore, i = 0;

	RTE_LCORE_FOREACH_WORKER (lcore)
		if (i < SENDERS)
			rte_eal_remote_launch(send_back, rings[i++], lcore);
	receive();
	rte_eal_mp_wait_lcore();
}

/* What came back, how often some of it came again, and how many lcores have had their turn. */
static atomic_uint back, again, turns;

/* Gets what the mempool gives this lcore. */
static int
get_all(void *arg)
{
	void *object;

	RTE_SET_USED(arg);
	while (back + again <= POPULATION && rte_mempool_get(pool, &object) == 0)
		if (atomic_exchange(&((struct object *)object)->is_out, 1))
			again++;
		else
			back++;
	turns++;
	return 0;
}

/* What an lcore keeps for itself, in a handler's own cache say, no other can get. (the turns are
 * atomic, as a thread sanitizer doesn't see how EAL waits) */
static void
get_all_in_turn(void)
{
	unsigned int lcore, before;

	get_all(NULL);
	RTE_LCORE_FOREACH_WORKER (lcore) {
		before = turns;
		rte_eal_remote_launch(get_all, NULL, lcore);
		while (turns == before)
			sched_yield();
		rte_eal_wait_lcore(lcore);
	}
}

/* Prints what was found, and tells whether there is a fault in it. */
static int
tell(const char *ops)
{
	unsigned int counted = rte_mempool_avail_count(pool);

	get_all_in_turn();
	printf("pipeline %s: %llu objects, %u of %u back\n", ops, got, back, POPULATION);
	if (got == nb_objects && got_twice == 0 && put_twice == 0 && seen == got &&
	    seen_twice == 0 && back == POPULATION && again == 0 && counted == POPULATION)
		return 0;
	printf("FAULT: %" PRIu64 " were to be got; got while out %llu, put while not out %llu, "
	       "serial numbers that came %llu, came again %llu; %u counted, got again %u\n",
	       nb_objects, got_twice, put_twice, seen, seen_twice, counted, again);
	return 1;
}

int
main(int argc, char **argv)
{
	const char *ops = argv[1];
	unsigned int cache, i;
	int words = 1, status;

	while (words < 4 && words < argc && argv[words][0] != '-')
		words++;
	if (words == 1) {
		fprintf(stderr, "usage: pipeline OPS [OBJECTS [CACHE]] [EAL options]\n");
		return 2;
	}
	nb_objects = words > 2 ? strtoull(argv[2], NULL, 10) : 100000000;
	cache = words > 3 ? strtoul(argv[3], NULL, 10) : 0;
	argv[words - 1] = argv[0];
	if (rte_eal_init(argc - words + 1, argv + words - 1) < 0)
		return 2;
	if (rte_lcore_count() < 1 + SENDERS) {
		fprintf(stderr, "%u lcores, %u are needed\n", rte_lcore_count(), 1 + SENDERS);
		return 2;
	}
	if (make(ops, cache) != 0) {
		fprintf(stderr, "%s: no pool: %s\n", ops, rte_strerror(rte_errno));
		return 2;
	}
	run_lcores();
	status = tell(ops);
	rte_mempool_free(pool);
	for (i = 0; i < SENDERS; i++)
		rte_ring_free(rings[i]);
	free(is_seen);
	rte_eal_cleanup();
	return status;
}
