/* checks.c - rounds in which each element that is got is looked at: while it is out a word of
 * it is marked, so that one which is given twice at once is seen, and so is one that is put and
 * wasn't out. A clone has to have a new element for each segment and one hold more of its
 * source's; a packet that is handed over has to bring the serial number that the other thread
 * wrote. */
#include <stdarg.h>
#include <stdio.h>
#include <string.h>

#include <rte_pause.h>
#include <rte_ring_elem.h>
#include <rte_spinlock.h>

#include "bench.h"

#define MOST_LINES 4 /* of one cell */

static const struct subject *subject_played;
static const struct cell *cell_played;
static unsigned int faults, lines;
static rte_spinlock_t lock = RTE_SPINLOCK_INITIALIZER;

void
checks_begin(const struct subject *subject, const struct cell *cell)
{
	subject_played = subject;
	cell_played = cell;
	lines = 0;
}

unsigned int
faults_told(void)
{
	return faults;
}

void
fault(const char *format, ...)
{
	va_list arguments;

	rte_spinlock_lock(&lock);
	faults++;
	if (lines++ < MOST_LINES) {
		fprintf(stderr, "bench: %s on %s, %u threads, cache %u: ",
			workloads[cell_played->workload].name, subject_played->name,
			cell_played->threads, cell_played->cache);
		va_start(arguments, format);
		vfprintf(stderr, format, arguments);
		va_end(arguments);
		fputc('\n', stderr);
	}
	rte_spinlock_unlock(&lock);
}

/* ---- marks ---- */

static void
is_out(uint32_t *mark)
{
	if (__atomic_exchange_n(mark, 1, __ATOMIC_SEQ_CST) != 0)
		fault("an element was given twice at once");
}

static void
is_back(uint32_t *mark)
{
	if (__atomic_exchange_n(mark, 0, __ATOMIC_SEQ_CST) != 1)
		fault("an element was to be put that isn't out");
}

/* Marks the segments of the i-th packet, or of the source, which has to have so many. */
static void
mark_packet(const struct pool *pool, void *user, const union refs *refs, unsigned int i,
	unsigned int segments, void (*each)(uint32_t *mark))
{
	unsigned int k;
	uint32_t *mark;

	for (k = 0; (mark = pool->calls->mark(user, refs, i, k)) != NULL; k++)
		each(mark);
	if (k != segments)
		fault("a packet has %u segments in place of %u", k, segments);
}

static void
mark_all(const struct pool *pool, void *user, const union refs *refs, unsigned int n,
	void (*each)(uint32_t *mark))
{
	unsigned int i;

	for (i = 0; i < n; i++)
		mark_packet(pool, user, refs, i, 1, each);
}

/* ---- rounds ---- */

static unsigned int
check_list(const struct pool *pool, void *user, unsigned int n)
{
	union refs refs;

	if (!pool->calls->get(user, &refs, n))
		return n;
	mark_all(pool, user, &refs, n, is_out);
	mark_all(pool, user, &refs, n, is_back);
	while (!pool->calls->put(user, &refs, n))
		rte_pause();
	return 0;
}

static unsigned int
check_packets(const struct pool *pool, void *user, unsigned int n, bool is_bulk)
{
	union refs refs;
	unsigned int i, got = 0;

	if (is_bulk)
		got = pool->calls->alloc_bulk(user, &refs, n) ? n : 0;
	for (i = 0; !is_bulk && i < n; i++)
		got += pool->calls->alloc(user, &refs, got);
	mark_all(pool, user, &refs, got, is_out);
	mark_all(pool, user, &refs, got, is_back);
	for (i = 0; i < got; i++)
		pool->calls->free(user, &refs, i);
	return n - got;
}

static void
check_holds(const struct pool *pool, void *user, unsigned int holds)
{
	unsigned int are = pool->calls->holds(user);

	if (are != holds)
		fault("what is cloned has %u holds in place of %u", are, holds);
}

static unsigned int
check_clone(const struct pool *pool, void *user, unsigned int segments)
{
	union refs refs;

	mark_packet(pool, user, NULL, 0, segments, is_out);
	if (!pool->calls->clone(user, &refs)) {
		mark_packet(pool, user, NULL, 0, segments, is_back);
		return segments;
	}
	mark_packet(pool, user, &refs, 0, segments, is_out);
	check_holds(pool, user, 2);
	mark_packet(pool, user, &refs, 0, segments, is_back);
	pool->calls->free(user, &refs, 0);
	check_holds(pool, user, 1);
	mark_packet(pool, user, NULL, 0, segments, is_back);
	return 0;
}

static unsigned int
check_pass(const struct pool *pool, void *user, unsigned int n)
{
	union refs refs;

	if (!pool->calls->get(user, &refs, n)) {
		rte_pause();
		return n;
	}
	mark_all(pool, user, &refs, n, is_out);
	while (rte_ring_enqueue_bulk_elem(pass_ring, &refs, pool->calls->ref_size, n, NULL) == 0)
		rte_pause();
	return 0;
}

static unsigned int
check_send(const struct pool *pool, void *user, unsigned int n)
{
	union refs refs;

	if (!(n == 1 ? pool->calls->alloc(user, &refs, 0) : pool->calls->alloc_bulk(user, &refs, n))) {
		rte_pause();
		return n;
	}
	mark_all(pool, user, &refs, n, is_out);
	pool->calls->send(user, &refs, n);
	return 0;
}

/* A packet came, and has to bring this number, of which it may keep no more than its buffer has
 * bytes. */
static void
check_serial(const struct pool *pool, void *user, uint32_t serial)
{
	uint32_t is = pool->calls->read(user);

	if (is % BUFFER != serial % BUFFER)
		fault("a packet was handed over with the number %u in place of %u", is,
			serial % BUFFER);
}

/* Numbers go up by one at each hand-over. */
static void
check_hands(const struct pool *pool, void *user)
{
	const bool is_alone = pool->answer == NULL;
	const uint32_t serial = pool->calls->read(user);
	unsigned int i;

	for (i = 1; i <= (is_alone ? 2 : 1); i++) {
		pool->calls->write(user, serial + i);
		while (!pool->calls->offer(user, 0))
			rte_pause();
		while (!pool->calls->take(user, is_alone ? 0 : 1))
			rte_pause();
		check_serial(pool, user, serial + i + (is_alone ? 0 : 1));
	}
}

static unsigned int
check_round(const struct pool *pool, enum workload w, void *user)
{
	switch (workloads[w].form) {
	case BARE:
	case ELEMENTS:
		return check_list(pool, user, size_of(w));
	case PACKETS:
		return check_packets(pool, user, size_of(w), w == PKT32);
	case CLONES:
		return check_clone(pool, user, size_of(w));
	case PASSED:
		return check_pass(pool, user, size_of(w));
	case SENT:
		return check_send(pool, user, size_of(w));
	default:
		check_hands(pool, user);
		return 0;
	}
}

uint64_t
check_rounds(const struct pool *pool, enum workload w, void *user, uint64_t rounds)
{
	uint64_t refused = 0;

	for (; rounds != 0; rounds--)
		refused += check_round(pool, w, user);
	return refused;
}

/* ---- the second of two threads ---- */

static void
answer_passes(const struct pool *pool, void *user, unsigned int n)
{
	union refs refs;
	unsigned int taken;
	bool is_last;

	do {
		is_last = __atomic_load_n(&is_over, __ATOMIC_SEQ_CST);
		taken = rte_ring_dequeue_bulk_elem(
			pass_ring, &refs, pool->calls->ref_size, n, NULL);
		mark_all(pool, user, &refs, taken, is_back);
		while (taken != 0 && !pool->calls->put(user, &refs, n))
			rte_pause();
	} while (taken != 0 || !is_last);
}

static void
answer_sends(const struct pool *pool, void *user, unsigned int n)
{
	union refs refs;
	unsigned int i;
	bool is_last, has_come;

	do {
		is_last = __atomic_load_n(&is_over, __ATOMIC_SEQ_CST);
		has_come = pool->calls->receive(user, &refs, n);
		mark_all(pool, user, &refs, has_come ? n : 0, is_back);
		for (i = 0; has_come && i < n; i++)
			pool->calls->free(user, &refs, i);
	} while (has_come || !is_last);
}

static void
answer_hands(const struct pool *pool, void *user)
{
	uint32_t serial = 1; /* of the first packet that comes */

	while (!__atomic_load_n(&is_over, __ATOMIC_SEQ_CST)) {
		if (!pool->calls->take(user, 0)) {
			rte_pause();
			continue;
		}
		check_serial(pool, user, serial);
		pool->calls->write(user, serial + 1);
		serial += 2;
		while (!pool->calls->offer(user, 1))
			rte_pause();
	}
}

void
check_answer(const struct pool *pool, enum workload w, void *user)
{
	switch (workloads[w].form) {
	case PASSED:
		answer_passes(pool, user, size_of(w));
		break;
	case SENT:
		answer_sends(pool, user, size_of(w));
		break;
	default:
		answer_hands(pool, user);
	}
}

/* ---- the end ---- */

uint32_t
drain(const struct pool *pool, void *user)
{
	union refs refs;
	uint32_t n = 0;

	while (pool->calls->get(user, &refs, 1)) {
		mark_packet(pool, user, &refs, 0, 1, is_out);
		n++;
	}
	return n;
}
