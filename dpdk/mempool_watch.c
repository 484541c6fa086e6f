/* mempool_watch.c - a mempool handler for DPDK that wraps another one, and gives once in some 10,000 objects a
 * watched mbuf: what is done wrong with that is told.
 *
 *     rte_mempool_set_ops_byname(mp, "mbufpool_watch", NULL),
 *     or --mbuf-pool-ops-name=mbufpool_watch for mbuf pools
 *
 * Some of the mempool's own mbufs are watched. They aren't in the handler below, but wait here, first in,
 * first out (watch_mbufs.c). A get gives one of them where an lcore's turn comes, among those of the handler
 * below. It has as its pool not the program's, but one that is alike and has no cache: so rte_pktmbuf_free()
 * brings it here at once, and with it who frees it. What comes here otherwise, as by the flush of a cache or
 * in a list of which nobody looked at each mbuf, is told apart by its address.
 *
 * Where the handler below has too few, a get takes what waits here, so that a program can have each mbuf of
 * its mempool.
 *
 * Of an lcore whose cache never runs empty nothing comes here: then packets are watched as ports receive them
 * (watch_ports.c).
 *
 * Limits: 65,534 watched mbufs, handlers in software alone, the primary process (one_process.h). */
#ifndef _GNU_SOURCE
#define _GNU_SOURCE
#endif
#include <errno.h>
#include <string.h>

#include <rte_cycles.h>
#include <rte_malloc.h>

#include "mempool_watch.h"
#include "one_process.h"
#include "watch.h"

#define MOST_AT_ONCE 64 /* watched mbufs in one get */

/* ---- the beginning ---- */

/* The first get begins the watch: by then the mempool's mbufs and its private data are as they stay. */
static __rte_cold __rte_noinline void
begin(struct watch *s)
{
	uint32_t ready = IS_READY;
	const char *reason;

	if (!__atomic_compare_exchange_n(
		    &s->state, &ready, IS_BEGINNING, 0, __ATOMIC_ACQUIRE, __ATOMIC_RELAXED))
		return;
	reason = watch_begin(s);
	if (reason != NULL) {
		__atomic_store_n(&s->state, IS_NONE, __ATOMIC_RELEASE);
		watch_log_none(s, reason);
		return;
	}
	__atomic_store_n(&s->state, IS_WATCHING, __ATOMIC_RELEASE);
	watch_log_begin(s);
}

/* An lcore's first get: from now on it has turns. Where nothing is watched none ever comes. */
static __rte_cold __rte_noinline int
has_turns(struct watch *s, struct turn *t)
{
	begin(s);
	if (is_watching(s)) {
		turn_begin(t, s->wishes.seed, t - s->gets);
		turn_set_until(t, turn_draw(t, s->wishes.every));
		return 1;
	}
	if (__atomic_load_n(&s->state, __ATOMIC_RELAXED) == IS_NONE)
		turn_set_until(t, INT64_MAX);
	return 0;
}

/* ---- gets ---- */

/* Who gets: with the calls on the way there, or without where it has to be quick. */
static struct past
got_by(const void *from, unsigned int how, uint64_t calls, const uintptr_t *slot)
{
	struct past get = { .got = caller_of(rte_lcore_id(), call_place(from, calls, slot)), .how_got = how };

	return get;
}

static void
put_back(struct watch *s, void **objects, unsigned int n)
{
	unsigned int i;

	for (i = 0; i < n; i++)
		watch_put_back(s, objects[i]);
}

/* Gets the rest of what is asked for from those that wait. */
static int
get_rest(struct watch *s, void **objects, unsigned int n, const void *from)
{
	const struct past get = got_by(from, AS_LAST, 0, NULL);
	struct rte_mbuf *m;
	unsigned int i;

	for (i = 0; i < n; i++) {
		if (!watch_get(s, &m, &get)) {
			put_back(s, objects, i);
			return -ENOBUFS;
		}
		objects[i] = m;
	}
	__atomic_fetch_add(&s->lasts, n, __ATOMIC_RELAXED);
	return 0;
}

/* Where the handler below hasn't enough: what it has, and the rest from those that wait. */
static __rte_cold __rte_noinline int
get_last(struct watch *s, void **objects, unsigned int n, const void *from)
{
	unsigned int k, waiting = watch_waiting(s);

	if (!is_watching(s) || waiting == 0)
		return -ENOBUFS;
	/* (what it counts may be less once it is asked, or be in magazines of other lcores) */
	k = RTE_MIN(n, wrapped_ops(s)->get_count(&s->wrapped));
	while (k > 0 && n - k <= waiting && wrapped_get(s, objects, k) != 0)
		k /= 2;
	if (n - k > waiting || get_rest(s, objects + k, n - k, from) != 0) {
		if (k > 0 && n - k <= waiting)
			wrapped_put(s, objects, k);
		return -ENOBUFS;
	}
	return 0;
}

/* At which of the next n objects the turn comes, counted from 0; answers how many those are. */
static unsigned int
turns_of(struct watch *s, struct turn *t, unsigned int n, unsigned int *at)
{
	int64_t until = turn_until(t);
	unsigned int k = 0;

	for (; until <= (int64_t)n; until += turn_draw(t, s->wishes.every))
		if (k < MOST_AT_ONCE)
			at[k++] = until - 1;
	turn_set_until(t, until - n);
	return k;
}

/* Gets up to k watched mbufs. */
static unsigned int
get_watched(struct watch *s, struct rte_mbuf **out, unsigned int k, const struct past *get)
{
	unsigned int i;

	for (i = 0; i < k && watch_get(s, &out[i], get); i++)
		;
	return i;
}

/* Puts k mbufs at their places in a list, whose first n - k are written. */
static void
mix(void **objects, unsigned int n, struct rte_mbuf *const *of, const unsigned int *at, unsigned int k)
{
	unsigned int i;

	for (i = 0; i < k; i++) {
		objects[n - k + i] = of[i];
		if (at[i] < n - k)
			RTE_SWAP(objects[n - k + i], objects[at[i]]);
	}
}

/* Some of the n are watched mbufs, or it is an lcore's first get, or one of more than there are. (a ring
 * refuses a get of none) */
static __rte_noinline int
get_mixed(struct watch *s, struct turn *t, void **objects, unsigned int n, const void *from)
{
	unsigned int at[MOST_AT_ONCE], turns, k = 0, i;
	struct rte_mbuf *of[MOST_AT_ONCE];
	struct past get;

	if (n > s->mp->size || (turn_until(t) == 0 && !has_turns(s, t)))
		return wrapped_get(s, objects, n);
	turns = turns_of(s, t, n, at);
	if (turns > 0 && watch_waiting(s) != 0) {
		get = got_by(from, n == 1 ? ALONE : IN_A_LIST, s->wishes.calls, slot_of(from, RETURN_SLOT()));
		k = get_watched(s, of, turns, &get);
	}
	if (unlikely(n > k && wrapped_get(s, objects, n - k) != 0)) {
		for (i = 0; i < k; i++)
			watch_put_back(s, of[i]);
		return get_last(s, objects, n, from);
	}
	turn_add(&t->given, k);
	turn_add(&t->dry, turns - k);
	mix(objects, n, of, at, k);
	return 0;
}

/* Each of these two is a function of its own, so that it returns into the code that gets and puts: that of
 * DPDK's calls is in line there. */
static int
handler_dequeue(struct rte_mempool *mp, void **objects, unsigned int n)
{
	struct watch *s = mp->pool_data;
	struct turn *t;
	int64_t until;

	if (unlikely(s == NULL))
		return -ENOBUFS;
	t = own_turn(s->gets);
	until = turn_until(t);
	if (unlikely(until <= (int64_t)n))
		return get_mixed(s, t, objects, n, __builtin_return_address(0));
	if (unlikely(wrapped_get(s, objects, n) != 0))
		return get_last(s, objects, n, __builtin_return_address(0));
	turn_set_until(t, until - n);
	return 0;
}

/* ---- puts ---- */

/* Puts a list in which watched mbufs may be, by themselves or among others. */
static __rte_noinline int
put_mixed(struct watch *s, void *const *objects, unsigned int n, unsigned int how, const void *from)
{
	unsigned int i, done = 0;
	uint32_t number;
	caller by = 0;
	int err = 0;

	for (i = 0; i < n; i++) {
		number = watch_number(s, objects[i]);
		if (number == s->count)
			continue;
		if (by == 0)
			by = caller_of(rte_lcore_id(),
				call_place(from, s->wishes.calls, slot_of(from, RETURN_SLOT())));
		if (i > done)
			err |= wrapped_put(s, objects + done, i - done);
		err |= watch_put(s, number, by, how);
		done = i + 1;
	}
	if (n > done)
		err |= wrapped_put(s, objects + done, n - done);
	return err != 0 ? -ENOBUFS : 0;
}

/* (the pool of watched mbufs is handled alike: what of a list isn't watched goes to the program's) */
static int
handler_enqueue(struct rte_mempool *mp, void *const *objects, unsigned int n)
{
	struct watch *s = mp->pool_data;
	unsigned int i, near = 0;

	if (unlikely(s == NULL))
		return -ENOBUFS;
	/* (one object is put most often) */
	if (n == 1)
		near = is_near(s, objects[0]);
	else
		for (i = 0; i < n; i++)
			near |= is_near(s, objects[i]);
	if (unlikely(near))
		return put_mixed(s, objects, n, n == 1 ? ALONE : IN_A_LIST, __builtin_return_address(0));
	return wrapped_put(s, objects, n);
}

static unsigned int
handler_get_count(const struct rte_mempool *mp)
{
	const struct watch *s = mp->pool_data;

	return s == NULL ? 0 : wrapped_ops(s)->get_count(&s->wrapped) + watch_waiting(s);
}

/* ---- the filling ---- */

struct filling {
	struct rte_mempool *mp;
	rte_mempool_populate_obj_cb_t *add;
	void *arg;
};

/* (the handler below knows a mempool of its own, and the program's has the objects) */
static void
add_to_program(struct rte_mempool *wrapped, void *arg, void *object, rte_iova_t iova)
{
	struct filling *f = arg;

	RTE_SET_USED(wrapped);
	f->add(f->mp, f->arg, object, iova);
}

/* A memory chunk is to be filled with objects. With the last of them the watch takes its own. */
static int
handler_populate(struct rte_mempool *mp, unsigned int max_objs, void *vaddr, rte_iova_t iova, size_t len,
	rte_mempool_populate_obj_cb_t *obj_cb, void *obj_cb_arg)
{
	struct filling filling = { mp, obj_cb, obj_cb_arg };
	struct watch *s = mp->pool_data;
	rte_mempool_populate_t populate;
	const char *reason;
	int populated;

	if (is_of_primary_alone(mp))
		return -ENOTSUP;
	s->wrapped.flags = mp->flags;
	populate = wrapped_ops(s)->populate;
	populated = (populate != NULL ? populate : rte_mempool_op_populate_default)(
		&s->wrapped, max_objs, vaddr, iova, len, add_to_program, &filling);
	if (populated < 0 || mp->populated_size < mp->size || s->state != IS_FILLING)
		return populated;
	reason = watch_make(s);
	if (reason != NULL)
		watch_log_none(s, reason);
	__atomic_store_n(&s->state, reason == NULL ? IS_READY : IS_NONE, __ATOMIC_RELEASE);
	return populated;
}

static ssize_t
handler_calc_mem_size(const struct rte_mempool *mp, uint32_t objects, uint32_t page_shift, size_t *min_chunk,
	size_t *align)
{
	const struct watch *s = mp->pool_data;
	rte_mempool_calc_mem_size_t calc = s != NULL ? wrapped_ops(s)->calc_mem_size : NULL;

	if (calc == NULL)
		return rte_mempool_op_calc_mem_size_default(mp, objects, page_shift, min_chunk, align);
	return calc(&s->wrapped, objects, page_shift, min_chunk, align);
}

/* ---- the life of a mempool ---- */

/* The handlers below which a watch was tried: in software, and safe for any thread that puts. */
static const char *const handlers[] = { "mbufpool", "ring_mp_mc", "ring_mp_sc", "ring_mt_rts", "ring_mt_hts",
	"stack", "lf_stack" };

static int
is_known(const char *name)
{
	size_t i;

	for (i = 0; i < RTE_DIM(handlers); i++)
		if (strcmp(handlers[i], name) == 0)
			return 1;
	return 0;
}

/* The place of the wrapped handler in DPDK's table, or -1. */
static int
find_handler(const struct rte_mempool *mp, const char *name)
{
	unsigned int i;

	if (!is_known(name)) {
		watch_log_over(mp, name, "is no handler that can be wrapped");
		return -1;
	}
	for (i = 0; i < rte_mempool_ops_table.num_ops; i++)
		if (strcmp(rte_mempool_ops_table.ops[i].name, name) == 0)
			return i;
	watch_log_over(mp, name, "isn't there: name another one, or load its plugin");
	return -1;
}

static int
make_wrapped(struct watch *s, struct rte_mempool *mp)
{
	int place, err;

	watch_read_wishes(&s->wishes);
	place = find_handler(mp, s->wishes.over);
	if (place < 0)
		return -EINVAL;
	s->mp = mp;
	s->wrapped = *mp;
	s->wrapped.ops_index = place;
	rte_spinlock_init(&s->lock);
	err = wrapped_ops(s)->alloc(&s->wrapped);
	/* (a handler may have others before it made a mempool) */
	s->get = wrapped_ops(s)->dequeue;
	s->put = wrapped_ops(s)->enqueue;
	return err;
}

static int
handler_alloc(struct rte_mempool *mp)
{
	struct watch *s;
	int err;

	if (is_of_primary_alone(mp))
		return -ENOTSUP;
	s = rte_zmalloc_socket("mbufpool_watch", sizeof(*s), RTE_CACHE_LINE_SIZE, mp->socket_id);
	if (s == NULL)
		return -ENOMEM;
	err = make_wrapped(s, mp);
	if (err != 0) {
		rte_free(s);
		return err;
	}
	mp->pool_data = s;
	set_calls(mp, handler_enqueue, handler_dequeue, handler_get_count);
	watch_list_add(s);
	return 0;
}

/* (a mempool that never had objects has no pool) */
static void
handler_free(struct rte_mempool *mp)
{
	struct watch *s = mp->pool_data;

	if (s == NULL || is_of_primary_alone(mp))
		return;
	mp->pool_data = NULL;
	watch_list_remove(s);
	watch_log_left_out(s);
	if (wrapped_ops(s)->free != NULL)
		wrapped_ops(s)->free(&s->wrapped);
	watch_end(s);
	rte_free(s);
}

static struct rte_mempool_ops watch_ops = {
	.name = MBUFPOOL_WATCH_OPS,
	.alloc = handler_alloc,
	.free = handler_free,
	.enqueue = put_unmade,
	.dequeue = get_unmade,
	.get_count = count_unmade,
	.calc_mem_size = handler_calc_mem_size,
	.populate = handler_populate,
};

#ifdef MBUFPOOL_PLUGIN
#include "registering.h"

static void
register_watch(void *arg)
{
	RTE_SET_USED(arg);
	register_handler(&watch_ops);
}

REGISTERED_BY(register_watch, MBUFPOOL_WATCH_OPS)
#else
RTE_MEMPOOL_REGISTER_OPS(watch_ops);
#endif
