/* rounds.h - a round of each workload, by the calls of a subject that includes this.
 *
 *     static const struct calls mbufs = { .alloc = .., .free = .. };
 *     PACKET_PLAYS(mbufs)
 *
 * gives `mbufs_plays`, in which each workload of packets has a loop of its own with those calls
 * in line, as a program has that makes them itself. How long a list is stands in that loop as a
 * constant. */
#ifndef ROUNDS_H
#define ROUNDS_H
#include <rte_pause.h>
#include <rte_ring_elem.h>

#include "bench.h"

/* What was got lies in memory, where a program could read it: the compiler keeps no element
 * from it. */
static __rte_always_inline void
is_read(const union refs *refs)
{
	__asm__ volatile("" : : "r"(refs) : "memory");
}

/* Puts a list as often as it is refused, and says how many elements that were. */
static __rte_always_inline uint64_t
put_back(const struct calls *c, void *user, const union refs *refs, unsigned int n)
{
	uint64_t refused = 0;

	while (unlikely(!c->put(user, refs, n)))
		refused += n;
	return refused;
}

static __rte_always_inline uint64_t
list_round(const struct calls *c, void *user, union refs *refs, unsigned int n)
{
	if (unlikely(!c->get(user, refs, n)))
		return n;
	is_read(refs);
	return put_back(c, user, refs, n);
}

static __rte_always_inline uint64_t
bulk_round(const struct calls *c, void *user, union refs *refs, unsigned int n)
{
	unsigned int i;

	if (unlikely(!c->alloc_bulk(user, refs, n)))
		return n;
	is_read(refs);
	for (i = 0; i < n; i++)
		c->free(user, refs, i);
	return 0;
}

static __rte_always_inline uint64_t
alloc_round(const struct calls *c, void *user, union refs *refs)
{
	if (unlikely(!c->alloc(user, refs, 0)))
		return 1;
	is_read(refs);
	c->free(user, refs, 0);
	return 0;
}

/* One packet after the other, and then the frees, the oldest first. */
static __rte_always_inline uint64_t
packet_round(const struct calls *c, void *user, union refs *refs, unsigned int n)
{
	unsigned int i, got = 0;

	for (i = 0; i < n; i++)
		if (likely(c->alloc(user, refs, got)))
			got++;
	is_read(refs);
	for (i = 0; i < got; i++)
		c->free(user, refs, i);
	return n - got;
}

static __rte_always_inline uint64_t
clone_round(const struct calls *c, void *user, union refs *refs, unsigned int segments)
{
	if (unlikely(!c->clone(user, refs)))
		return segments;
	is_read(refs);
	c->free(user, refs, 0);
	return 0;
}

static __rte_always_inline uint64_t
pass_round(const struct calls *c, void *user, union refs *refs, unsigned int n)
{
	if (unlikely(!c->get(user, refs, n))) {
		rte_pause();
		return n;
	}
	while (rte_ring_enqueue_bulk_elem(pass_ring, refs, c->ref_size, n, NULL) == 0)
		rte_pause();
	return 0;
}

static __rte_always_inline bool
make_packets(const struct calls *c, void *user, union refs *refs, unsigned int n)
{
	return n == 1 ? c->alloc(user, refs, 0) : c->alloc_bulk(user, refs, n);
}

static __rte_always_inline uint64_t
send_round(const struct calls *c, void *user, union refs *refs, unsigned int n)
{
	if (unlikely(!make_packets(c, user, refs, n))) {
		rte_pause();
		return n;
	}
	c->send(user, refs, n);
	return 0;
}

/* Pointers to packets, or to what they are under way as: over the ring. */
static __rte_always_inline void
send_pointers(const union refs *refs, unsigned int n)
{
	while (rte_ring_enqueue_bulk(pass_ring, refs->object, n, NULL) == 0)
		rte_pause();
}

static __rte_always_inline bool
receive_pointers(union refs *refs, unsigned int n)
{
	return rte_ring_dequeue_bulk(pass_ring, refs->object, n, NULL) != 0;
}

/* To the other thread and back; in `alone` twice to oneself. */
static __rte_always_inline uint64_t
hand_round(const struct calls *c, void *user, bool alone)
{
	const unsigned int back = alone ? 0 : 1;
	unsigned int i;

	for (i = 0; i < (alone ? 2 : 1); i++) {
		while (!c->offer(user, 0))
			rte_pause();
		while (!c->take(user, back))
			rte_pause();
	}
	return 0;
}

static __rte_always_inline uint64_t
one_round(const struct calls *c, enum workload w, void *user, union refs *refs)
{
	switch (w) {
	case STK1:
	case STK8:
	case STK32:
	case GET1:
	case GET32:
		return list_round(c, user, refs, size_of(w));
	case PKT1:
		return alloc_round(c, user, refs);
	case PKT32:
		return bulk_round(c, user, refs, size_of(w));
	case CLONE1:
	case CLONE4:
		return clone_round(c, user, refs, size_of(w));
	case PASS1:
	case PASS32:
		return pass_round(c, user, refs, size_of(w));
	case SEND1:
	case SEND32:
		return send_round(c, user, refs, size_of(w));
	default:
		return packet_round(c, user, refs, size_of(w));
	}
}

static __rte_always_inline uint64_t
rounds_of(const struct calls *c, enum workload w, void *user, uint64_t rounds)
{
	union refs refs;
	uint64_t refused = 0;

	for (; rounds != 0; rounds--)
		refused += one_round(c, w, user, &refs);
	return refused;
}

static __rte_always_inline uint64_t
hands_of(const struct calls *c, void *user, uint64_t rounds, bool alone)
{
	for (; rounds != 0; rounds--)
		hand_round(c, user, alone);
	return 0;
}

/* Puts the lists of the other thread. */
static __rte_always_inline void
take_passed(const struct calls *c, void *user, unsigned int n)
{
	union refs refs;
	unsigned int taken;
	bool is_last;

	do {
		is_last = __atomic_load_n(&is_over, __ATOMIC_SEQ_CST);
		taken = rte_ring_dequeue_bulk_elem(pass_ring, &refs, c->ref_size, n, NULL);
		if (taken != 0)
			put_back(c, user, &refs, n);
		else
			rte_pause();
	} while (taken != 0 || !is_last);
}

/* Frees the packets of the other thread. */
static __rte_always_inline void
free_sent(const struct calls *c, void *user, unsigned int n)
{
	union refs refs;
	unsigned int i;
	bool is_last, has_come;

	do {
		is_last = __atomic_load_n(&is_over, __ATOMIC_SEQ_CST);
		has_come = c->receive(user, &refs, n);
		if (!has_come)
			rte_pause();
		for (i = 0; has_come && i < n; i++)
			c->free(user, &refs, i);
	} while (has_come || !is_last);
}

/* Hands the packet back, whenever it comes. */
static __rte_always_inline void
hand_back(const struct calls *c, void *user)
{
	while (!__atomic_load_n(&is_over, __ATOMIC_SEQ_CST)) {
		if (!c->take(user, 0)) {
			rte_pause();
			continue;
		}
		while (!c->offer(user, 1))
			rte_pause();
	}
}

#define PLAY(calls, w) \
	static uint64_t calls##_##w(void *user, uint64_t rounds) \
	{ \
		return rounds_of(&calls, w, user, rounds); \
	}

#define ELEMENT_PLAYS(calls) \
	PLAY(calls, STK1) \
	PLAY(calls, STK8) \
	PLAY(calls, STK32) \
	PLAY(calls, GET1) \
	PLAY(calls, GET32) \
	static const play_function calls##_plays[WORKLOADS] = { \
		[STK1] = calls##_STK1, \
		[STK8] = calls##_STK8, \
		[STK32] = calls##_STK32, \
		[GET1] = calls##_GET1, \
		[GET32] = calls##_GET32, \
	};

#define PASS_PLAYS(calls) \
	PLAY(calls, PASS1) \
	PLAY(calls, PASS32) \
	static void calls##_take1(void *user) { take_passed(&calls, user, size_of(PASS1)); } \
	static void calls##_take32(void *user) { take_passed(&calls, user, size_of(PASS32)); } \
	static void calls##_pass(enum workload w, struct pool *pool) \
	{ \
		pool->play = w == PASS1 ? calls##_PASS1 : calls##_PASS32; \
		pool->answer = w == PASS1 ? calls##_take1 : calls##_take32; \
	}

#define SEND_PLAYS(calls) \
	PLAY(calls, SEND1) \
	PLAY(calls, SEND32) \
	static void calls##_free1(void *user) { free_sent(&calls, user, size_of(SEND1)); } \
	static void calls##_free32(void *user) { free_sent(&calls, user, size_of(SEND32)); } \
	static void calls##_send(enum workload w, struct pool *pool) \
	{ \
		pool->play = w == SEND1 ? calls##_SEND1 : calls##_SEND32; \
		pool->answer = w == SEND1 ? calls##_free1 : calls##_free32; \
	}

#define PACKET_PLAYS(calls) \
	PLAY(calls, PKT1) \
	PLAY(calls, PKT32) \
	PLAY(calls, PKT240) \
	PLAY(calls, CLONE1) \
	PLAY(calls, CLONE4) \
	static const play_function calls##_plays[WORKLOADS] = { \
		[PKT1] = calls##_PKT1, \
		[PKT32] = calls##_PKT32, \
		[PKT240] = calls##_PKT240, \
		[CLONE1] = calls##_CLONE1, \
		[CLONE4] = calls##_CLONE4, \
	};

#define HAND_PLAYS(calls) \
	static uint64_t calls##_there(void *user, uint64_t rounds) \
	{ \
		return hands_of(&calls, user, rounds, false); \
	} \
	static uint64_t calls##_alone(void *user, uint64_t rounds) \
	{ \
		return hands_of(&calls, user, rounds, true); \
	} \
	static void calls##_back(void *user) { hand_back(&calls, user); } \
	static void calls##_hand(unsigned int threads, struct pool *pool) \
	{ \
		pool->play = threads == 1 ? calls##_alone : calls##_there; \
		pool->answer = threads == 1 ? NULL : calls##_back; \
	}

#endif
