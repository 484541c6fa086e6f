/* guard_pool.h - what the files of the handler "mbufpool_guard" share. */
#ifndef GUARD_POOL_H
#define GUARD_POOL_H
#include <stddef.h>
#include <stdint.h>

#include <rte_common.h>
#include <rte_lcore.h>
#include <rte_mempool.h>
#include <rte_spinlock.h>

#include "call_places.h"
#include "mbufpool.h"
#include "object_numbers.h"

/* Who put an element last, or 0 while it is out; who got it last, or 0 where nobody has; and how often it was
 * got. What was put last is in the pool: a put notes itself before it asks the library, and a get behind that. */
struct past {
	union {
		struct {
			caller put, got;
		};
		uint64_t both;
	};
	uint32_t gets; /* modulo 2^32 */
};

/* Where a worker was called from last, and the caller that this is, as it is noted of what he gets or puts. */
struct last_call {
	const void *at;
	struct past noted;
};

/* The worker of an lcore, or of all threads without one. (two cache lines, as the processor fetches
 * pairs of them) */
struct guard_user {
	struct mbufpool_guard guard;
	uint64_t puts, gets; /* modulo 2^64: written by the user alone */
	struct last_call get, put;
} __rte_aligned(2 * RTE_CACHE_LINE_SIZE);

/* What limits the lines that a pool logs of refused puts. */
struct line_limit {
	uint64_t window;   /* a second, and behind it in 8 bits how many lines it has had */
	uint64_t left_out; /* since the last line that told it */
};

/* An element of the library is a place in the mempool's memory (object_numbers.h). Where objects keep off the
 * ends of pages some places have no object: such an element stays out. */
struct guard_pool {
	void **objects;	    /* for each element its object, or NULL; and one more NULL */
	struct past *pasts; /* for each element */
	struct object_places places;
	uint32_t *numbers; /* of the objects, as rte_mempool_obj_iter() comes to them, for each element */
	const struct rte_mempool *mp;
	uint32_t size, known; /* how many objects there are to be, and how many there are */
	uintptr_t filling, filling_end; /* the memory that is filled with objects now */
	struct line_limit limit __rte_cache_aligned;
	uint64_t refused, late; /* puts, since the pool was made: refused, and found to have been too many */
	int is_fault_told;
	struct guard_pool *next; /* in the list of all pools */
	rte_spinlock_t lock;	 /* of the shared user */
	struct guard_user shared; /* of all threads that aren't enabled lcores */
	struct guard_user lcores[RTE_MAX_LCORE]; /* those of lcores that aren't enabled have no worker */
	struct guard_user *own[RTE_MAX_LCORE];	 /* those that have one, or NULL */
};

/* ---- guard_open.c ---- */

int guard_make(struct rte_mempool *mp);
void guard_free(struct rte_mempool *mp);
int guard_populate(struct rte_mempool *mp, unsigned int max_objs, void *vaddr, rte_iova_t iova, size_t len,
	rte_mempool_populate_obj_cb_t *obj_cb, void *obj_cb_arg);

/* ---- guard_apart.c ---- (none is of the usual way) */

#define GUARD_APART __rte_cold __rte_noinline

/* Looks up who calls, by where the call returns to, and keeps him as the last. */
GUARD_APART void guard_look_up_getter(struct last_call *last, const void *at);
GUARD_APART void guard_look_up_putter(struct last_call *last, const void *at);

/* The user by whose worker a thread gets and puts: its own, or the shared one, locked. */
struct guard_user *guard_lock(struct guard_pool *p);
void guard_unlock(struct guard_pool *p, struct guard_user *u);

/* Tells what a user's worker found late, and counts its puts anew by what the library counts. */
GUARD_APART void guard_tell_late(struct guard_pool *p, struct guard_user *u);

/* The same of the shared worker, where nobody has its lock. (a thread that a debugger stopped may) */
void guard_tell_shared(struct guard_pool *p);

/* Gets and puts of a thread without an lcore, or of a mempool without a pool. */
GUARD_APART int guard_enqueue(struct guard_pool *p, void *const *objects, unsigned int n, const void *at);
GUARD_APART int guard_dequeue(struct guard_pool *p, void **objects, unsigned int n, const void *at);

/* Gets objects of any number, in lists. */
GUARD_APART int guard_get(struct guard_pool *p, void **objects, unsigned int n, caller by);

/* The element of an object, or NO_PLACE where none begins at this address. */
__rte_noinline uint32_t guard_element(const struct guard_pool *p, const void *object);

/* Puts an object from the first step on, for the last caller of this lcore. */
GUARD_APART int guard_put_own(struct guard_pool *p, void *object);

/* What this lcore counted and noted wasn't put, or not all of it: the first for this cause. */
GUARD_APART int guard_put_counted(struct guard_pool *p, const uint32_t *list, unsigned int n, uint32_t cause);
GUARD_APART int guard_put_counted_one(struct guard_pool *p, void *object, uint32_t cause);

/* What this lcore counted wasn't got, for this cause. */
GUARD_APART int guard_get_counted(struct guard_pool *p, void **objects, unsigned int n, uint32_t cause);

/* ---- guard_way.c ---- */

/* Reads what the environment asks, once, and says whether there is memory for the ways. */
int guard_way_begin(void);

/* The number of the place in the code that a call returns to, with the calls on the way to it where the
 * environment asks for them; or 0 where there is no number left. */
uint32_t guard_way_to(const void *return_address);

/* How many calls on the way are noted, as the environment asks. */
extern unsigned int guard_calls;

/* ---- guard_log.c ---- */

/* Each of these is one line at most. */
void guard_log_not_out(struct guard_pool *p, uint32_t element, caller put, caller by);
void guard_log_stranger(struct guard_pool *p, const void *object, caller by);
void guard_log_late(struct guard_pool *p, uint32_t element);
void guard_log_left_out(struct guard_pool *p); /* where lines were left out, how many */
void guard_log_fault(struct guard_pool *p, const char *call, uint32_t cause);
void guard_log_size(const struct rte_mempool *mp);
void guard_log_cache(const struct rte_mempool *mp);
void guard_log_waiting(const struct rte_mempool *mp, unsigned long wish, uint32_t waiting);
void guard_log_wish(const char *name, const char *wish, unsigned int most);
void guard_log_ways(void); /* (once) */

/* ---- guard_report.c ---- */

/* Adds a pool to those that telemetry tells of, and takes it from there, behind what it tells. */
void guard_list_add(struct guard_pool *p);
void guard_list_remove(struct guard_pool *p);
#endif
