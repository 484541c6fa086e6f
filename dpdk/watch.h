/* watch.h - what the files of the handler "mbufpool_watch" share. */
#ifndef MBUFPOOL_WATCH_H
#define MBUFPOOL_WATCH_H
#include <stddef.h>
#include <stdint.h>

#include <rte_branch_prediction.h>
#include <rte_common.h>
#include <rte_lcore.h>
#include <rte_mbuf.h>
#include <rte_mempool.h>
#include <rte_spinlock.h>

#include "call_places.h"
#include "line_limit.h"
#include "mbufpool.h"
#include "tallies.h"

/* ---- what the environment asks ---- */

struct watch_wishes {
	const char *over;	      /* the handler that is wrapped */
	uint64_t mbufs, every, calls; /* how many are watched; one in how many is; calls on the way to a place */
	uint64_t rx;		      /* whether ports are watched */
	uint64_t old, idle;	      /* seconds after which what is out, and that nothing is given, is told */
	uint64_t seed;		      /* 0: by the clock */
};

/* Reads them for a new mempool. What is no number of its range is logged, and isn't used. */
void watch_read_wishes(struct watch_wishes *wishes);

/* ---- one mbuf in N ---- */

/* When the next turn of an lcore comes, or of a port's queue. (written by the lcore alone, or by all threads
 * without one, which may lose a count) */
struct turn {
	int64_t until;	/* objects or packets up to the next one whose turn it is */
	uint64_t drawn; /* the sum of all intervals, so that drawn - until is what was seen */
	uint64_t random;
	uint64_t given, dry, left_alone; /* turns: with a watched mbuf; without one; of packets that stay */
} __rte_cache_aligned;

static __rte_always_inline uint64_t
turn_load(const uint64_t *at)
{
	return __atomic_load_n(at, __ATOMIC_RELAXED);
}

static __rte_always_inline void
turn_store(uint64_t *at, uint64_t n)
{
	__atomic_store_n(at, n, __ATOMIC_RELAXED);
}

static __rte_always_inline void
turn_add(uint64_t *at, uint64_t n)
{
	turn_store(at, turn_load(at) + n);
}

static __rte_always_inline int64_t
turn_until(const struct turn *t)
{
	return __atomic_load_n(&t->until, __ATOMIC_RELAXED);
}

static __rte_always_inline void
turn_set_until(struct turn *t, int64_t until)
{
	__atomic_store_n(&t->until, until, __ATOMIC_RELAXED);
}

/* The turn of this thread's lcore, or of all threads without one. */
static __rte_always_inline struct turn *
own_turn(struct turn *turns)
{
	const unsigned int lcore = rte_lcore_id();

	return &turns[likely(lcore < RTE_MAX_LCORE) ? lcore : RTE_MAX_LCORE];
}

/* Begins an lcore's turns, which differ from those of others. */
static inline void
turn_begin(struct turn *t, uint64_t seed, unsigned int number)
{
	uint64_t random = (seed + number + 1) * UINT64_C(0x9e3779b97f4a7c15);

	random = (random ^ random >> 31) * UINT64_C(0xbf58476d1ce4e5b9);
	turn_store(&t->random, (random ^ random >> 29) | 1);
}

/* Draws from 1 to 2N - 1, N in the mean, so that nothing periodic keeps clear of it. */
static inline int64_t
turn_draw(struct turn *t, uint64_t every)
{
	uint64_t random = turn_load(&t->random), interval;

	random ^= random << 13;
	random ^= random >> 7;
	random ^= random << 17;
	turn_store(&t->random, random);
	interval = 1 + (random >> 11) % (2 * every - 1);
	turn_add(&t->drawn, interval);
	return (int64_t)interval;
}

/* ---- watched mbufs ---- */

enum { IN_A_LIST, ALONE, FROM_A_PORT, AS_LAST };

/* Who got an mbuf last and who put it last, 0 where nobody has; and how. */
struct past {
	caller got, put;
	uint32_t gets; /* how often it was given */
	uint16_t port; /* it was received from */
	uint8_t how_got, how_put;
};

struct watched {
	struct rte_mbuf *mbuf;
	struct past past;
	uint64_t since; /* when it was got or put last, in cycles of the time stamp counter */
	uint8_t is_out;
	uint8_t is_kept; /* its header is kept, and its data room has the pattern */
};

/* What an mbuf differs in from what it was when it was freed. */
struct finding {
	const char *part; /* "header", "private area", "data room"; NULL where there is nothing */
	size_t at, bytes; /* where it begins there, and up to its end */
	unsigned char sample[8];
};

#define PARTS 3

enum watch_state { IS_FILLING, IS_READY, IS_BEGINNING, IS_WATCHING, IS_NONE };

struct watch {
	struct rte_mempool *mp;	    /* the program's */
	rte_mempool_dequeue_t get;  /* of the handler below */
	rte_mempool_enqueue_t put;
	uintptr_t first, bytes;	    /* from the first watched mbuf to behind the last one's beginning */
	struct rte_mempool *alias;  /* the pool of a watched mbuf: the program's, but without a cache */
	uint32_t state;
	struct rte_mempool wrapped; /* what the handler below sees of the mempool */
	/* (all below is read and written under the lock, but for what says otherwise) */
	rte_spinlock_t lock __rte_cache_aligned;
	struct mbufpool_guard guard; /* which of them wait, and in which order */
	struct watched *all;
	uint32_t count;	  /* how many are watched: fixed */
	uint32_t waiting; /* (read without the lock) */
	uint64_t inverse; /* 2^64 / stride, rounded up: fixed */
	uint16_t *numbers; /* by strides from `first`: an mbuf's number and 1, or 0 where none is watched: fixed */
	unsigned char *kept; /* the headers of those that wait, with their private areas */
	uint32_t kept_bytes, room; /* of each: fixed */
	uint64_t refused, written, lasts; /* (relaxed) */
	struct line_limit limit_refused, limit_written, limit_old;
	int is_fault_told;
	/* (of the tick alone) */
	uint64_t idle_since, idle_given, idle_seen, idle_packets;
	int is_idle_told;
	struct tally *told_old; /* of each place what was told last */
	uint32_t nb_told_old;
	struct watch_wishes wishes;
	struct watch *next; /* in the list of all */
	struct turn gets[RTE_MAX_LCORE + 1], ports[RTE_MAX_LCORE + 1]; /* (of ports the counts alone) */
};

static __rte_always_inline int
is_watching(const struct watch *s)
{
	return __atomic_load_n(&s->state, __ATOMIC_ACQUIRE) == IS_WATCHING;
}

static __rte_always_inline uint32_t
watch_waiting(const struct watch *s)
{
	return __atomic_load_n(&s->waiting, __ATOMIC_RELAXED);
}

static __rte_always_inline const struct rte_mempool_ops *
wrapped_ops(const struct watch *s)
{
	return rte_mempool_get_ops(s->wrapped.ops_index);
}

static __rte_always_inline int
wrapped_get(struct watch *s, void **objects, unsigned int n)
{
	return s->get(&s->wrapped, objects, n);
}

static __rte_always_inline int
wrapped_put(struct watch *s, void *const *objects, unsigned int n)
{
	return s->put(&s->wrapped, objects, n);
}

/* Whether an object may be a watched mbuf. */
static __rte_always_inline int
is_near(const struct watch *s, const void *object)
{
	return (uintptr_t)object - s->first < s->bytes;
}

/* The number of a watched mbuf, or `count` for an object that is none. */
uint32_t watch_number(const struct watch *s, const void *object);

/* Takes some of a mempool's mbufs out of circulation, once it is filled: says why it doesn't, or NULL. */
const char *watch_make(struct watch *s);

/* Makes the pool of watched mbufs, when the program's first one is got; or says why it doesn't, and puts them
 * back. */
const char *watch_begin(struct watch *s);
void watch_end(struct watch *s);

/* Gives the mbuf that waits longest, and says who got it and how. Answers whether there is one. */
int watch_get(struct watch *s, struct rte_mbuf **out, const struct past *get);

/* Takes a watched mbuf back where it is out, else tells. Answers 0 or -ENOBUFS. */
int watch_put(struct watch *s, uint32_t number, caller by, unsigned int how);

/* Takes one back that nobody was given. */
void watch_put_back(struct watch *s, struct rte_mbuf *m);

/* ---- ports (watch_ports.c) ---- */

/* Adds the callback to ports that have started, and takes it from those that have stopped. */
void watch_look_at_ports(const struct watch_wishes *wishes);
void watch_leave_ports(void);
uint64_t watch_seen_of_ports(void); /* packets */

/* ---- the list of all, and what is looked at now and then (watch_tick.c) ---- */

void watch_list_add(struct watch *s);
void watch_list_remove(struct watch *s); /* it isn't looked at any more when this returns */
void watch_list_lock(void);
void watch_list_unlock(void);
struct watch *watch_list_first(void); /* (under the lock) */

/* ---- reports (watch_report.c) ---- */

/* Counts those that are out since `before` or longer by who got them, most first, what lies in lcores' caches
 * left out; and says of how many. The tallies are freed by whoever asks. NULL: no memory. */
struct tally *watch_count_out(struct watch *s, uint64_t before, uint32_t *nb_tallies, uint32_t *out);

uint64_t watch_given(const struct watch *s, int by_ports);
uint64_t watch_seen(const struct watch *s); /* objects that came from the handler */

/* ---- lines (watch_log.c): each is one at most, and no lock is held by whoever calls ---- */

void watch_log_begin(const struct watch *s);
void watch_log_none(const struct watch *s, const char *reason);
void watch_log_over(const struct rte_mempool *mp, const char *over, const char *reason);
void watch_log_wish(const char *name, const char *wish, uint64_t least, uint64_t most);
void watch_log_refused(struct watch *s, uint32_t number, const struct past *past, caller by, unsigned int how);
void watch_log_written(struct watch *s, uint32_t number, const struct past *past, const struct finding *found);
void watch_log_old(struct watch *s, const struct tally *t);
void watch_log_idle(const struct watch *s, uint64_t seen, uint64_t packets);
void watch_log_fault(struct watch *s, const char *call, uint32_t cause);
void watch_log_left_out(struct watch *s);
void watch_log_ports(const char *reason); /* (once) */

#endif
