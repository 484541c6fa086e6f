/* bench.h - what the files of the benchmark share.
 *
 * A workload is what a thread does again and again: a round of it gets some elements and puts
 * them back. A subject is what it is done on: DPDK's mempool on some handler, a face of
 * mbufpool.h, or plain C. A pool is a subject that is made for one workload; it has a user for
 * each thread. A cell of the table is one subject, workload, number of threads and size of
 * caches. */
#ifndef BENCH_H
#define BENCH_H
#include <stdbool.h>
#include <stddef.h>
#include <stdint.h>

#include <rte_common.h>
#include <rte_ring.h>

#include "mbufpool.h"

#define MOST_THREADS 16
#define MOST_REFS 240	/* elements that a round holds at once */
#define BUFFER 2048	/* bytes of a packet's buffer behind its headroom of 128 */
#define DATA_ROOM (RTE_PKTMBUF_HEADROOM + BUFFER)
#define NAME_SIZE 32

/* ---- workloads ---- */

/* What kind of pool a workload is done on. */
enum form {
	BARE,	  /* what stands below a mempool: a list off it, and back */
	ELEMENTS, /* a list got, through the cache where there is one, and put */
	PACKETS,  /* packets that are made and freed */
	CLONES,	  /* a packet that is cloned, and its clone freed */
	PASSED,	  /* a list that one thread gets and another puts, over a ring of 1,024 */
	SENT,	  /* packets that one thread makes and another frees, over such a ring or desks */
	HANDED,	  /* one packet that two threads hand to and fro, or that one hands to itself */
	FORMS
};

enum workload {
	STK1, STK8, STK32,
	GET1, GET32,
	PKT1, PKT32, PKT240,
	CLONE1, CLONE4,
	PASS1, PASS32,
	SEND1, SEND32,
	HANDOVER,
	WORKLOADS
};

struct workload_facts {
	const char *name;
	enum form form;
};

extern const struct workload_facts workloads[WORKLOADS];

/* How many elements a round gets and puts back; of `handover`, how often it hands the packet
 * over. */
static __rte_always_inline unsigned int
size_of(enum workload w)
{
	switch (w) {
	case STK8:
		return 8;
	case STK32:
	case GET32:
	case PKT32:
	case PASS32:
	case SEND32:
		return 32;
	case PKT240:
		return 240;
	case CLONE4:
		return 4;
	case HANDOVER:
		return 2;
	default:
		return 1;
	}
}

/* ---- subjects ---- */

/* What a thread keeps of the elements or packets that it has got. */
union refs {
	void *object[MOST_REFS];
	struct rte_mbuf *mbuf[MOST_REFS];
	uint64_t value[MOST_REFS];
	uint32_t number[MOST_REFS];
	struct mbufpool_packet packet[MOST_REFS];
};

struct pool;

/* What the users of a pool can do. Those which a pool lacks are NULL. */
struct calls {
	/* Of elements: n of them, all or none. What is put was got; where it is refused it is
	 * put again. */
	unsigned int ref_size;
	bool (*get)(void *user, union refs *refs, unsigned int n);
	bool (*put)(void *user, const union refs *refs, unsigned int n);

	/* Of packets: one, the i-th of the refs, or n. */
	bool (*alloc)(void *user, union refs *refs, unsigned int i);
	bool (*alloc_bulk)(void *user, union refs *refs, unsigned int n);
	void (*free)(void *user, const union refs *refs, unsigned int i);
	bool (*clone)(void *user, union refs *refs); /* of the user's source, to the first ref */

	/* Of packets that another thread frees: sends n that were made, of which the refs say
	 * nothing then; and receives n, if they come. */
	void (*send)(void *user, union refs *refs, unsigned int n);
	bool (*receive)(void *user, union refs *refs, unsigned int n);

	/* Of the one packet that is handed over: onto a place, 0 or 1, and off it. */
	bool (*offer)(void *user, unsigned int place);
	bool (*take)(void *user, unsigned int place);

	/* In the user's thread, before the first round and behind the last. */
	bool (*ready)(void *user);
	void (*rest)(void *user);

	/* For checks: the word in which it is marked that an element is out, the i-th of the
	 * refs, or of a packet that of the segment, NULL where it has no more of them; where
	 * refs is NULL, of the source. How many holds the source's elements have. The serial
	 * number that the packet that is handed over brings. */
	uint32_t *(*mark)(void *user, const union refs *refs, unsigned int i, unsigned int segment);
	unsigned int (*holds)(void *user);
	void (*write)(void *user, uint32_t serial);
	uint32_t (*read)(void *user);

	/* When all threads have rested: how many elements are missing from the pool, below 0
	 * where it has too many. It is called once. */
	int64_t (*missing)(struct pool *pool);
	void (*close)(struct pool *pool);
};

/* Does that many rounds, and says how many elements were refused. */
typedef uint64_t (*play_function)(void *user, uint64_t rounds);

/* What the second of two threads does until the first says that it is over (rounds.h). */
typedef void (*answer_function)(void *user);

struct pool {
	const struct calls *calls;
	play_function play;
	answer_function answer; /* NULL: all threads play */
	void *user[MOST_THREADS];
	void *at; /* what the subject keeps of it */
};

/* What a pool is made for. */
struct cell {
	enum workload workload;
	unsigned int threads;
	uint32_t cache, population;
	uint64_t rounds; /* so many in place of a time, or 0 */
	bool is_checked;
};

struct subject {
	char name[NAME_SIZE];
	bool is_handler;    /* its name is that of a mempool handler, without which it isn't there */
	bool has_no_cache;  /* it is measured with a cache of 0 alone */
	unsigned int most_threads; /* 0: any */
	/* Makes the pool for a cell, or says false. NULL: the subject hasn't workloads of this
	 * form. */
	bool (*open[FORMS])(const struct subject *subject, const struct cell *cell, struct pool *pool);
};

extern const struct subject mempool_subject; /* on a handler, whose name is to be filled in */
extern const struct subject lf_stack_subject, stack_subject, ring_mp_mc_subject;
extern const struct subject ring_sp_sc_subject, ring_read_subject, ring_copy_subject;
extern const struct subject plain_subject, none_subject;
extern const struct subject pool_subject, worker_subject, parcel_subject, parcel_packed_subject;
extern const struct subject twice_subject, loses_subject;

/* bare.c, rings.c: the forms of DPDK's own subjects that aren't a mempool */
bool open_bare_stack(const struct subject *subject, const struct cell *cell, struct pool *pool);
bool open_bare_ring(const struct subject *subject, const struct cell *cell, struct pool *pool);
bool open_handed_ring(const struct subject *subject, const struct cell *cell, struct pool *pool);

/* rings.c: the rings of one element over which a packet is handed there and back */
bool make_places(struct rte_ring *place[2], unsigned int size, unsigned int flags);

/* ---- runs ---- */

/* What came of a run: the nanoseconds of one thread for each element that was got and put back,
 * or of both threads for one that was passed, by the clock on the wall and by that of the
 * thread's processor time; how many elements that were, and how many were refused. */
struct tally {
	double wall, processor;
	uint64_t elements, refused;
};

/* Plays a cell's workload on this pool for so many nanoseconds. */
struct tally play_pool(const struct cell *cell, const struct pool *pool, uint64_t ns);

/* Of a list that is passed or sent, the ring; and whether the first of two threads has ended,
 * with nothing of it on the way but what is on that ring or on desks. */
extern struct rte_ring *pass_ring;
extern bool is_over;

/* ---- checks ---- */

/* Says what is wrong with the pool that is played, once of each, and counts it. */
void fault(const char *format, ...) __rte_format_printf(1, 2);

/* Names what is played, for the lines of faults, or NULL; and says how many faults there were. */
void checks_begin(const struct subject *subject, const struct cell *cell);
unsigned int faults_told(void);

/* Does rounds as a play function does, and looks at each element that it gets. */
uint64_t check_rounds(const struct pool *pool, enum workload w, void *user, uint64_t rounds);

void check_answer(const struct pool *pool, enum workload w, void *user);

/* Gets what the user's thread can get, to the last, and says how many elements that were. */
uint32_t drain(const struct pool *pool, void *user);

#endif
