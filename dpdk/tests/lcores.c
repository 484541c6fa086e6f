/* lcores.c - mempools on the handler "mbufpool" that several lcores use, and a thread without an lcore:
 * each of them in turn has to get each object once.
 *
 *     make lcores
 *     ./lcores PLAY --no-huge -m 512 --no-pci -l 0-3
 *
 * All get and put lists of many lengths at once; then they rest, and all that is in is counted. An lcore
 * gets half of it at least, whatever the others have in their magazines; and all of it where these
 * have flushed, one by one and in one list. Where a mempool is small, nothing is left with the others.
 *
 * The play is `plain`; or `refused`, in which the library refuses one of some calls meanwhile, for causes
 * that no such program comes to: what it refuses to take has to be kept, and got. It is linked with --wrap,
 * so that what the library is asked comes by here. */
#include <inttypes.h>
#include <pthread.h>
#include <stdbool.h>

#include <rte_eal.h>
#include <rte_errno.h>
#include <rte_launch.h>

/* (the handler is compiled in, so that a worker can be told to flush) */
#include "../mempool_mbufpool.c"

#define LONGEST 300
#define FEW 8192 /* objects that a list has at most */

/* Ends the program unless this holds. */
#define MUST(what) \
	do { \
		if (!(what)) { \
			printf("lcores: %u objects, %s, line %d: not so: %s\n", mp->size, \
				describe(), __LINE__, #what); \
			exit(1); \
		} \
	} while (0)

static struct rte_mempool *mp;
static uint64_t rounds; /* of the load, of each thread */

/* What an object has: whether it is out, by whose thread. */
struct object {
	uint32_t is_out;
};

static const char *
describe(void)
{
	static char text[32];

	if (rte_lcore_id() == LCORE_ID_ANY)
		return "a thread without an lcore";
	snprintf(text, sizeof(text), "lcore %u", rte_lcore_id());
	return text;
}

/* ---- what the library refuses ---- */

static unsigned int of_calls; /* one of so many is refused, or none */

uint32_t __real_mbufpool_pool_get(struct mbufpool_pool *pool, uint64_t *out, size_t n);
uint32_t __wrap_mbufpool_pool_get(struct mbufpool_pool *pool, uint64_t *out, size_t n);
uint32_t __real_mbufpool_pool_get_one(struct mbufpool_pool *pool, uint64_t *out);
uint32_t __wrap_mbufpool_pool_get_one(struct mbufpool_pool *pool, uint64_t *out);
uint32_t __real_mbufpool_pool_put(struct mbufpool_pool *pool, const uint64_t *list, size_t n);
uint32_t __wrap_mbufpool_pool_put(struct mbufpool_pool *pool, const uint64_t *list, size_t n);
uint32_t __real_mbufpool_pool_put_one(struct mbufpool_pool *pool, uint64_t value);
uint32_t __wrap_mbufpool_pool_put_one(struct mbufpool_pool *pool, uint64_t value);

/* Whether this call is refused, by each thread's own count. */
static bool
refuses(void)
{
	static __thread unsigned int calls;

	return of_calls != 0 && ++calls % of_calls == 0;
}

/* (each of the causes in turn) */
static uint32_t
cause_of_put(void)
{
	static const uint32_t all[] = { MBUFPOOL_CONTENDED, MBUFPOOL_NO_MAGAZINE, MBUFPOOL_HEAD_SPENT };
	static __thread unsigned int turn;

	return all[turn++ % RTE_DIM(all)];
}

uint32_t
__wrap_mbufpool_pool_get(struct mbufpool_pool *pool, uint64_t *out, size_t n)
{
	return refuses() ? MBUFPOOL_CONTENDED : __real_mbufpool_pool_get(pool, out, n);
}

uint32_t
__wrap_mbufpool_pool_get_one(struct mbufpool_pool *pool, uint64_t *out)
{
	return refuses() ? MBUFPOOL_CONTENDED : __real_mbufpool_pool_get_one(pool, out);
}

uint32_t
__wrap_mbufpool_pool_put(struct mbufpool_pool *pool, const uint64_t *list, size_t n)
{
	return refuses() ? cause_of_put() : __real_mbufpool_pool_put(pool, list, n);
}

uint32_t
__wrap_mbufpool_pool_put_one(struct mbufpool_pool *pool, uint64_t value)
{
	return refuses() ? cause_of_put() : __real_mbufpool_pool_put_one(pool, value);
}

/* ---- gets and puts, of which each is looked at ---- */

static bool
get(void **list, unsigned int n)
{
	unsigned int i;

	if (rte_mempool_get_bulk(mp, list, n) != 0)
		return false;
	for (i = 0; i < n; i++)
		MUST(__atomic_exchange_n(&((struct object *)list[i])->is_out, 1, __ATOMIC_RELAXED) == 0);
	return true;
}

static void
put(void **list, unsigned int n)
{
	unsigned int i;

	for (i = 0; i < n; i++)
		MUST(__atomic_exchange_n(&((struct object *)list[i])->is_out, 0, __ATOMIC_RELAXED) == 1);
	rte_mempool_put_bulk(mp, list, n);
}

static uint32_t
below(uint64_t *state, uint32_t n)
{
	*state ^= *state << 13;
	*state ^= *state >> 7;
	*state ^= *state << 17;
	return (*state >> 11) % n;
}

/* Gets lists, single ones as often, and puts them in parts of other lengths. */
static int
load(void *arg)
{
	uint64_t state = 0x9e3779b97f4a7c15 ^ (rte_lcore_id() + 1ull), k;
	unsigned int n, done, part;
	void *list[LONGEST];

	RTE_SET_USED(arg);
	for (k = 0; k < rounds; k++) {
		n = below(&state, 2) == 0 ? 1 : 1 + below(&state, LONGEST);
		if (!get(list, n))
			continue;
		for (done = 0; done < n; done += part) {
			part = 1 + below(&state, n - done);
			put(list + done, part);
		}
	}
	return 0;
}

/* ---- what one can get, while the others rest ---- */

/* Gets one by one until it is refused, and puts all back. Returns how many. */
static unsigned int
get_all_singly(void)
{
	void **all = calloc(mp->size + 1, sizeof(*all));
	unsigned int n = 0, i;

	MUST(all != NULL);
	while (n <= mp->size && get(all + n, 1))
		n++;
	MUST(n <= mp->size && rte_mempool_avail_count(mp) == mp->size - n);
	for (i = 0; i < n; i++)
		put(all + i, 1);
	free(all);
	return n;
}

static void
get_all_in_one(void)
{
	void **all = calloc(mp->size + 1, sizeof(*all));

	MUST(all != NULL && !get(all, mp->size + 1) && get(all, mp->size));
	MUST(rte_mempool_avail_count(mp) == 0 && !get(all + mp->size, 1));
	put(all, mp->size);
	free(all);
}

static int
gets_half(void *arg)
{
	RTE_SET_USED(arg);
	MUST(get_all_singly() >= mp->size / 2);
	return 0;
}

static int
gets_all(void *arg)
{
	RTE_SET_USED(arg);
	MUST(get_all_singly() == mp->size);
	if (mp->size < FEW)
		get_all_in_one();
	return 0;
}

static int
flushes(void *arg)
{
	struct pool *p = mp->pool_data;
	struct user *own = own_user(p);

	RTE_SET_USED(arg);
	rte_spinlock_lock(&p->lock);
	flush(own != NULL ? own : &p->shared);
	rte_spinlock_unlock(&p->lock);
	return 0;
}

/* ---- the threads ---- */

static void *
run(void *arg)
{
	lcore_function_t *const function = *(lcore_function_t **)arg;

	function(NULL);
	return NULL;
}

static pthread_t
begin_without_lcore(lcore_function_t **function)
{
	pthread_t thread;

	MUST(pthread_create(&thread, NULL, run, function) == 0);
	return thread;
}

/* Lets each lcore, and a thread without one, do this at once. */
static void
at_once(lcore_function_t *function)
{
	pthread_t thread = begin_without_lcore(&function);

	rte_eal_mp_remote_launch(function, NULL, CALL_MAIN);
	rte_eal_mp_wait_lcore();
	pthread_join(thread, NULL);
}

/* Lets each of them do it by itself, and where it is asked after all have flushed. */
static void
in_turn(lcore_function_t *function, bool is_flushed)
{
	unsigned int lcore;

	RTE_LCORE_FOREACH (lcore) {
		if (is_flushed)
			at_once(flushes);
		if (lcore == rte_get_main_lcore()) {
			function(NULL);
		} else {
			rte_eal_remote_launch(function, NULL, lcore);
			rte_eal_wait_lcore(lcore);
		}
	}
	if (is_flushed)
		at_once(flushes);
	pthread_join(begin_without_lcore(&function), NULL);
}

/* ---- the mempools ---- */

static void
fill_object(struct rte_mempool *of, void *arg, void *object, unsigned int k)
{
	RTE_SET_USED(of);
	RTE_SET_USED(arg);
	RTE_SET_USED(k);
	memset(object, 0, sizeof(struct object));
}

/* Whether there are fewer than 8 for half of the magazines that all workers have. */
static bool
is_small(uint32_t size)
{
	return size < 8 * 4 * (rte_lcore_count() + 1);
}

static void
play(uint32_t size, bool is_refused)
{
	struct pool *p;
	uint64_t kept;

	mp = rte_mempool_create_empty("lcores", size, sizeof(struct object), 0, 0, SOCKET_ID_ANY, 0);
	if (mp == NULL || rte_mempool_set_ops_byname(mp, "mbufpool", NULL) != 0 ||
		rte_mempool_populate_default(mp) < 0) {
		printf("lcores: no mempool of %u objects: %s\n", size, rte_strerror(rte_errno));
		exit(2);
	}
	p = mp->pool_data;
	rte_mempool_obj_iter(mp, fill_object, NULL);
	MUST(rte_mempool_avail_count(mp) == size);
	gets_all(NULL);
	rounds = 200000;
	of_calls = is_refused ? 37 : 0;
	at_once(load);
	of_calls = 0;
	MUST(rte_mempool_avail_count(mp) == size);
	kept = p->magazines.nb_kept; /* (of a small mempool all of it may have been got again) */
	MUST((p->is_keeping_told != 0) == is_refused && (is_refused || kept == 0));
	in_turn(is_small(size) ? gets_all : gets_half, false);
	in_turn(gets_all, true);
	MUST(rte_mempool_avail_count(mp) == size && p->magazines.nb_kept == 0);
	rte_mempool_free(mp);
	printf("lcores: %u objects, of which %" PRIu64 " were kept, got in turn by %u lcores and a thread "
		"without one\n", size, kept, rte_lcore_count());
}

int
main(int argc, char **argv)
{
	static const uint32_t sizes[] = { 64, 511, 8191, 1000000 };
	const bool is_refused = argc > 1 && strcmp(argv[1], "refused") == 0;
	size_t i;

	if (argc < 2 || (!is_refused && strcmp(argv[1], "plain") != 0)) {
		fprintf(stderr, "usage: lcores plain|refused [EAL options]\n");
		return 2;
	}
	argv[1] = argv[0];
	if (rte_eal_init(argc - 1, argv + 1) < 0)
		return 2;
	for (i = 0; i < RTE_DIM(sizes); i++)
		play(sizes[i], is_refused);
	return 0;
}
