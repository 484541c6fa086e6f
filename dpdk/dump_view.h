/* dump_view.h - what is read of a mempool for a dump, and when.
 *
 * A view is opened, which looks up all that doesn't change as the pool is used, and takes the memory
 * for what is read; then filled, which copies where each object is and what each mbuf says; and then a
 * dump is made of the copy alone. So a pool may change meanwhile: no walk along what was copied can
 * lead anywhere else by that.
 *
 * Of DPDK's rings and stacks, and of mbufpool's magazines, filling calls nothing, takes no lock and no
 * memory, and writes nothing to the pool. It may be done while every other thread stands still. */
#ifndef DUMP_VIEW_H
#define DUMP_VIEW_H
#include <stdint.h>
#include <stdio.h>
#include <sys/types.h>

#include <rte_lcore.h>
#include <rte_mbuf.h>
#include <rte_mempool.h>

#include "dump.h"
#include "pool_magazines.h"

#define NO_ELEM MBUFPOOL_NO_ELEM
#define UNREST_TEXT 96

/* How the common part of a pool is read. */
enum common_kind {
	COMMON_UNKNOWN,
	COMMON_RING,
	COMMON_STACK,
	COMMON_LF_STACK,
	COMMON_MAGAZINES, /* of the handler mbufpool */
	COMMON_GUARD	  /* by what the handler's plugin lists */
};

struct place {
	uintptr_t mbuf;
	uint32_t elem;
};

/* What was read of an mbuf. */
struct shot {
	const struct rte_mbuf *next;
	const struct rte_mbuf *base; /* the mbuf whose buffer it uses, or NULL where that is its own */
	uint16_t refcnt, off, len, buf;
};

/* A chunk of the memory of a mempool. */
struct land {
	uintptr_t from, to;
	struct rte_mempool *mp;
};

struct lands {
	struct land *all;
	uint32_t count, room;
	uint32_t last; /* that in which was found what was looked for last */
};

/* A pool, and what is known of its elements. */
struct view {
	struct rte_mempool *mp;
	uint32_t size;
	const struct rte_mbuf **mbufs; /* by number */
	struct place *places;	       /* by address */
	struct lands lands;	       /* of the pool */
	enum common_kind kind;
	uint32_t capacity; /* of the ring, the stack or the magazines */
	struct pool_magazines magazines; /* where they are, */
	pid_t owner;			 /* in which process, or 0 for this one, */
	struct magazine *copied;	 /* and room for a copy of them */

	struct shot *shots; /* by number */
	void **common;	    /* from the top */
	uint32_t nb_common;
	void **cached; /* what each lcore's cache has, MOST_CACHED behind one another */
	uint32_t nb_cached[RTE_MAX_LCORE];
	char unrest[UNREST_TEXT]; /* which operation on the common part was going on, or "" */

	/* Of the packets: marks of each element, how many clones in use have its buffer, and the last
	 * walk that came by. */
	uint8_t *marks;
	uint32_t *clones, *walked;
	/* Of the packets that are listed: how many segments of the pool have a base in it, and in
	 * the other pool; and how many of another pool have one in it. */
	uint64_t based, foreign, guests;
};

#define MOST_CACHED RTE_DIM(((struct rte_mempool_cache *)0)->objs)

/* ---- dump_view.c ---- */

/* Opens a view of zeros, and answers 0 or what mbufpool_dump() does. It is closed either way. */
int dump_view_open(struct view *v, struct rte_mempool *mp);
int dump_view_fill(struct view *v);
void dump_view_close(struct view *v);

/* Reads what mbufpool_dump_workers() writes, of a view of zeros that isn't opened. */
void dump_view_glance(struct view *v, struct rte_mempool *mp);

/* The number of an object of the pool, or NO_ELEM. */
uint32_t dump_view_find(const struct view *v, const void *object);

/* Reads an mbuf. */
struct shot dump_shot_of(const struct rte_mbuf *m);

/* Notes the memory of each mempool; and in which of them so many bytes are, or NULL. */
int dump_lands_of_all(struct lands *lands);
struct rte_mempool *dump_lands_find(struct lands *lands, const void *at, size_t bytes);

/* Whether an address is in memory that EAL shares with secondary processes. */
int dump_is_shared_at(uintptr_t at);

/* ---- dump_common.c: each of these reads, and calls nothing of the pool ---- */

/* How long the memzone is that begins at this address, and is named after the mempool behind `prefix`;
 * 0 where there is none. */
size_t dump_common_bytes(const struct rte_mempool *mp, const char *prefix, const void *at);

/* Says how the common part is read, and `capacity`. */
void dump_common_recognise(struct view *v);

/* Whether it is a ring, a stack or magazines, of which this is done. */
int dump_common_in_place(const struct view *v);

/* Copies the common part, with `unrest`. There is room for `capacity` objects. Answers 0, or what
 * mbufpool_dump() does where the memory of another process can't be read. */
int dump_common_copy(struct view *v);

/* How many objects are in it, by its words; UINT32_MAX where that can't be read. */
uint32_t dump_common_count(const struct view *v);

/* Reads `unrest` alone. */
void dump_common_glance(struct view *v);

/* The name that DPDK has for the handler, or NULL. */
const char *dump_common_handler(const struct view *v);

/* ---- dump_magazines.c: the same for the handler mbufpool ---- */

void dump_magazines_recognise(struct view *v);
int dump_magazines_take_memory(struct view *v);
int dump_magazines_copy(struct view *v);
uint32_t dump_magazines_count(const struct view *v);

/* ---- dump.c ---- */

/* Writes a snapshot of a view that was filled. What was marked of its packets before is forgotten. */
int dump_view_write(FILE *out, struct view *v);
void dump_view_write_workers(FILE *out, const struct view *v);
#endif
