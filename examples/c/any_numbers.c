/* any_numbers.c - every call of the library with any numbers: slots of packets that went, desks that
 * there are not, lengths too great, elements that were never got, handles without a worker, and NULL
 * for a handle. What is answered is held against what must be so, and at the end of a pool every
 * element can be had again. (A pool of values is put what was got and not put since, as is owed;
 * parcels are sent and received in any_parcels.c.)
 *
 *     make any_numbers && ./any_numbers [CALLS [THREADS [SEED]]]
 *
 * Pools are made one after the other, each for some thousand calls by each of THREADS threads. */
#include <pthread.h>
#include <sched.h>
#include <stdio.h>
#include <stdlib.h>
#include <string.h>

#include "mbufpool.h"

#define MOST_THREADS 4
#define SLOTS 256
#define MOST 512 /* elements of a pool, and numbers in a list */
#define CALLS_OF_POOL 5000
#define STATUSES 32

/* A thread: its handles, its numbers, and what it knows of its own. */
struct thread {
	pthread_t id;
	uint64_t state;
	unsigned long calls, answers[STATUSES];
	struct mbufpool_worker worker;
	struct mbufpool_pool pool;
	uint64_t hand[MOST];          /* which values it has got */
	uint32_t in_hand;
	unsigned char full[SLOTS];    /* which of its worker's places have a packet */
	uint32_t slot[SLOTS];         /* the slot of each, or of the next packet there */
};

static struct mbufpool_limits limits;
static int taken[MOST]; /* which values the threads have */
static unsigned long seed = 1;

/* Ends the program unless this holds. */
#define MUST(what) \
	do { \
		if (!(what)) { \
			printf("line %d, seed %lu: not so: %s\n", __LINE__, seed, #what); \
			exit(1); \
		} \
	} while (0)

/* ---- numbers ---- */

static uint64_t next_number(struct thread *t)
{
	t->state ^= t->state << 13;
	t->state ^= t->state >> 7;
	t->state ^= t->state << 17;
	return t->state >> 11;
}

static uint32_t below(struct thread *t, uint32_t n)
{
	return (uint32_t)(next_number(t) % n);
}

/* Mostly a small number, at times a great one or one at a limit. */
static uint32_t any(struct thread *t)
{
	static const uint32_t odd[] = { 0, 1, 63, 64, 65, 127, 255, 256, 257, 511, 512, 513, 65535,
		65536, 65537, 16777214, 16777215, 0x7fffffff, 0x80000000u, UINT32_MAX };

	switch (below(t, 8)) {
	case 0: return odd[below(t, sizeof(odd) / sizeof(odd[0]))];
	case 1: return below(t, SLOTS);
	case 2: return (uint32_t)next_number(t);
	default: return below(t, 24);
	}
}

static uint32_t told(struct thread *t, uint32_t status)
{
	MUST(status < STATUSES);
	t->calls++;
	t->answers[status]++;
	return status;
}

/* ---- packets ---- */

static int is_full(const struct thread *t, uint32_t slot)
{
	return t->full[MBUFPOOL_PLACE(slot)] && t->slot[MBUFPOOL_PLACE(slot)] == slot;
}

static void has_slot(struct thread *t, uint32_t slot)
{
	MUST(!t->full[MBUFPOOL_PLACE(slot)] && t->slot[MBUFPOOL_PLACE(slot)] == slot);
	t->full[MBUFPOOL_PLACE(slot)] = 1;
}

static void has_new(struct thread *t, const struct mbufpool_packet *p)
{
	has_slot(t, p->slot);
	MUST(p->element < limits.population);
}

/* The packet went, and its slot stands for nothing: the next one there has another. */
static void has_gone(struct thread *t, uint32_t slot)
{
	t->full[MBUFPOOL_PLACE(slot)] = 0;
	t->slot[MBUFPOOL_PLACE(slot)] += SLOTS;
}

/* Mostly a slot as it is now, at times one of a packet that went, or any number. */
static uint32_t any_slot(struct thread *t)
{
	uint32_t place = below(t, below(t, 4) ? 24 : SLOTS);

	switch (below(t, 8)) {
	case 0: return any(t);
	case 1: return t->slot[place] - SLOTS * (1 + below(t, 3));
	case 2: return t->slot[place] + SLOTS;
	default: return t->slot[place];
	}
}

/* No packet has any slot yet. */
static void begin_slots(struct thread *t)
{
	uint32_t place;

	memset(t->full, 0, sizeof(t->full));
	for (place = 0; place < SLOTS; place++)
		t->slot[place] = place;
}

/* A packet's segments add up to it, and lie in their buffers. */
static void look_at(struct thread *t, uint32_t slot)
{
	uint32_t length = 0, segments = 0, references = 0, sum = 0, i;
	struct mbufpool_segment s;

	MUST(mbufpool_worker_pkt_len(&t->worker, slot, &length) == 0);
	MUST(mbufpool_worker_nb_segs(&t->worker, slot, &segments) == 0);
	MUST(mbufpool_worker_refcnt(&t->worker, slot, &references) == 0);
	MUST(segments >= 1 && segments <= 32 && references >= 1 && references <= limits.ref_limit);
	for (i = 0; i < segments; i++) {
		MUST(mbufpool_worker_segment(&t->worker, slot, i, &s) == 0);
		MUST(s.element < limits.population && s.buffer < limits.population);
		MUST((uint32_t)s.off + s.len <= s.buf && s.buf <= limits.buf);
		sum += s.len;
	}
	MUST(mbufpool_worker_segment(&t->worker, slot, segments, &s) == MBUFPOOL_TOO_SHORT);
	MUST(sum == length);
}

/* One call of a worker. What names a slot without a packet is refused, and says so. */
static void call_worker(struct thread *t)
{
	struct mbufpool_worker *w = &t->worker;
	uint32_t a = any_slot(t), b = any_slot(t), desk = any(t), status, n = 0, i, had = 0, now = 0;
	uint16_t length = (uint16_t)(desk % 7 ? desk % 200 : desk);
	struct mbufpool_packet p[SLOTS + 2];
	struct mbufpool_segment s;

	switch (below(t, 20)) {
	case 0:
	case 1:
		status = told(t, mbufpool_worker_alloc(w, p));
		if (status == 0)
			has_new(t, p);
		return;
	case 2:
		n = desk % (below(t, 4) ? 12 : SLOTS + 3);
		status = told(t, mbufpool_worker_alloc_bulk(w, p, n));
		for (i = 0; status == 0 && i < n; i++)
			has_new(t, &p[i]);
		return;
	case 3:
		status = told(t, mbufpool_worker_chain(w, a, b));
		MUST(status != 0 || (is_full(t, a) && is_full(t, b) && a != b));
		if (status == 0)
			has_gone(t, b);
		return;
	case 4:
		status = told(t, mbufpool_worker_attach(w, a, b));
		MUST(status != 0 || (is_full(t, a) && is_full(t, b) && a != b));
		return;
	case 5:
		status = told(t, mbufpool_worker_clone(w, a, p));
		MUST((status == MBUFPOOL_NO_SUCH_PACKET) == !is_full(t, a));
		if (status == 0)
			has_new(t, p);
		return;
	case 6:
		status = told(t, mbufpool_worker_offer(w, a, desk));
		MUST(status != 0 || (is_full(t, a) && desk < limits.desks));
		if (status == 0)
			has_gone(t, a);
		return;
	case 7:
		status = told(t, mbufpool_worker_take(w, desk, &n));
		MUST((status == MBUFPOOL_NO_SUCH_DESK) == (desk >= limits.desks));
		if (status != 0)
			return;
		has_slot(t, n);
		look_at(t, n);
		return;
	case 8:
		status = told(t, mbufpool_worker_flush(w));
		MUST(status == 0 || status == MBUFPOOL_CONTENDED);
		return;
	case 9:
		status = told(t, mbufpool_worker_segment(w, a, desk, &s));
		MUST((status == MBUFPOOL_NO_SUCH_PACKET) == !is_full(t, a));
		return;
	case 10: status = mbufpool_worker_detach(w, a); break;
	case 11: status = mbufpool_worker_refcnt(w, a, &n); break;
	case 12: status = mbufpool_worker_nb_segs(w, a, &n); break;
	case 13:
	case 14:
	case 15:
	case 16:
		if (is_full(t, a))
			MUST(mbufpool_worker_pkt_len(w, a, &had) == 0);
		switch (below(t, 4)) {
		case 0: status = mbufpool_worker_append(w, a, length, &now), had += length; break;
		case 1: status = mbufpool_worker_prepend(w, a, length, &now), had += length; break;
		case 2: status = mbufpool_worker_adj(w, a, length, &now), had -= length; break;
		default: status = mbufpool_worker_trim(w, a, length, &now), had -= length; break;
		}
		MUST(status != 0 || now == had);
		break;
	default:
		status = mbufpool_worker_free(w, a);
		MUST((status == MBUFPOOL_NO_SUCH_PACKET) == !is_full(t, a));
		if (status == 0) {
			has_gone(t, a);
			MUST(mbufpool_worker_free(w, a) == MBUFPOOL_NO_SUCH_PACKET);
		}
		told(t, status);
		return;
	}
	told(t, status);
	MUST((status == MBUFPOOL_NO_SUCH_PACKET) == !is_full(t, a));
	if (is_full(t, a))
		look_at(t, a);
}

/* Takes what lies on desks, frees all packets, and flushes. */
static void clear_worker(struct thread *t)
{
	uint32_t desk, place, slot, status;

	for (place = 0; place < SLOTS; place++)
		MUST((mbufpool_worker_free(&t->worker, t->slot[place]) == 0) == t->full[place]);
	for (desk = 0; desk < limits.desks; desk++) {
		while ((status = mbufpool_worker_take(&t->worker, desk, &slot)) == 0)
			MUST(mbufpool_worker_free(&t->worker, slot) == 0);
		MUST(status == MBUFPOOL_DESK_EMPTY || status == MBUFPOOL_CONTENDED);
	}
	MUST(mbufpool_worker_flush(&t->worker) == 0);
}

/* ---- pools of values ---- */

/* The value of this number, and the number of a value: any values below UINT64_MAX will do. */
static uint64_t value_of(uint32_t number)
{
	return 0xfedc000000000000u + (uint64_t)number * 7919;
}

static uint32_t number_of(uint64_t value)
{
	MUST(value >= value_of(0) && (value - value_of(0)) % 7919 == 0);
	return (uint32_t)((value - value_of(0)) / 7919);
}

static void got(struct thread *t, const uint64_t *list, uint32_t n)
{
	uint32_t i;

	for (i = 0; i < n; i++) {
		MUST(number_of(list[i]) < limits.population);
		MUST(__atomic_exchange_n(&taken[number_of(list[i])], 1, __ATOMIC_SEQ_CST) == 0);
		t->hand[t->in_hand++] = list[i];
	}
}

static void get_some(struct thread *t, uint32_t n)
{
	uint64_t list[MOST];
	uint32_t status;

	n = n < MOST - t->in_hand ? n : MOST - t->in_hand;
	list[0] = 77;
	if (n == 1 && below(t, 2)) {
		status = told(t, mbufpool_pool_get_one(&t->pool, list));
		MUST(status == 0 || list[0] == 77);
	} else
		status = told(t, mbufpool_pool_get(&t->pool, list, n));
	MUST(status == 0 || status == MBUFPOOL_NO_ENTRIES || status == MBUFPOOL_CONTENDED);
	if (status == 0)
		got(t, list, n);
}

/* Puts values of its hand, in any order. */
static void put_some(struct thread *t, uint32_t n)
{
	uint64_t list[MOST];
	uint32_t i, k, status;

	n = n < t->in_hand ? n : t->in_hand;
	for (i = 0; i < n; i++) {
		k = below(t, t->in_hand);
		list[i] = t->hand[k];
		t->hand[k] = t->hand[--t->in_hand];
		MUST(__atomic_exchange_n(&taken[number_of(list[i])], 0, __ATOMIC_SEQ_CST) == 1);
	}
	if (n == 1 && below(t, 2))
		status = told(t, mbufpool_pool_put_one(&t->pool, list[0]));
	else
		status = told(t, mbufpool_pool_put(&t->pool, list, n));
	MUST(status == 0 || status == MBUFPOOL_CONTENDED);
	if (status != 0)
		got(t, list, n);
}

static void call_pool(struct thread *t)
{
	uint32_t n = any(t) % (below(t, 4) ? 9 : MOST + 1), status;

	switch (below(t, 40)) {
	case 0:
		status = told(t, mbufpool_pool_flush(&t->pool));
		MUST(status == 0 || status == MBUFPOOL_CONTENDED);
		break;
	default:
		if (below(t, 2))
			get_some(t, n);
		else
			put_some(t, n);
		break;
	}
}

/* Makes the threads' pool, and puts all its values. */
static void begin_values(struct thread *t, uint32_t threads)
{
	uint64_t list[MOST];
	uint32_t i;

	MUST(mbufpool_pool_open(limits.population, threads, limits.tries, &t[0].pool) == 0);
	for (i = 0; i < limits.population; i++)
		list[i] = value_of(i);
	MUST(mbufpool_pool_put(&t[0].pool, list, limits.population) == 0);
	for (i = 1; i < threads; i++)
		MUST(mbufpool_pool_split(&t[0].pool, &t[i].pool) == 0);
}

/* Each value is in the pool or in a hand, and once they are put and flushed one worker gets them all. */
static void end_values(struct thread *t, uint32_t threads)
{
	uint64_t count, in_pool = 0;
	uint32_t i, found = 0;

	for (i = 0; i < threads; i++) {
		MUST(mbufpool_pool_count(&t[i].pool, &count) == 0);
		in_pool += count;
		found += t[i].in_hand;
	}
	MUST(in_pool + found == limits.population);
	for (i = 0; i < threads; i++) {
		MUST(mbufpool_pool_put(&t[i].pool, t[i].hand, t[i].in_hand) == 0);
		MUST(mbufpool_pool_flush(&t[i].pool) == 0);
		t[i].in_hand = 0;
	}
	memset(taken, 0, sizeof(taken));
	MUST(mbufpool_pool_get(&t[0].pool, t[0].hand, limits.population) == 0);
	got(&t[0], t[0].hand, limits.population);
	memset(taken, 0, sizeof(taken));
	t[0].in_hand = 0;
	for (i = 0; i < threads; i++) {
		mbufpool_pool_end(&t[i].pool);
		MUST(t[i].pool.at == NULL);
	}
}

/* Whether there can be a pool of values of this size, by the header. */
static int is_pool_of_values(uint64_t values, uint32_t workers, uint32_t tries)
{
	uint64_t rounds;

	if (workers == 0 || tries == 0)
		return 0;
	rounds = values / (4 * (uint64_t)workers);
	rounds = rounds < 8 ? 8 : rounds > 128 ? 128 : rounds;
	return values / rounds + 2 + 3 * (uint64_t)workers < 65535;
}

static void open_values(struct thread *t)
{
	struct mbufpool_pool pool = MBUFPOOL_NONE, other = MBUFPOOL_NONE;
	uint64_t values = below(t, 16) ? any(t) : next_number(t), count = 77;
	uint32_t workers = any(t), tries = any(t), status, i;

	status = told(t, mbufpool_pool_open(values, workers, tries, &pool));
	MUST(status == (is_pool_of_values(values, workers, tries) ? 0 : MBUFPOOL_BAD_POOL));
	MUST((pool.at != NULL) == (status == 0));
	if (status == 0) {
		for (i = 1; (status = mbufpool_pool_split(&pool, &other)) == 0; i++)
			;
		MUST(status == MBUFPOOL_STRANGER && i == workers);
		MUST(mbufpool_pool_count(&pool, &count) == 0 && count == 0);
		MUST(mbufpool_pool_get_one(&pool, &count) == MBUFPOOL_NO_ENTRIES && count == 0);
		MUST(mbufpool_pool_open(values, 0, tries, &pool) == MBUFPOOL_BAD_POOL && pool.at != NULL);
	}
	mbufpool_pool_end(&pool);
	mbufpool_pool_end(&other);
}

/* Each call of a worker that there is not: a handle with zeros, or NULL. */
static void call_no_pool(struct thread *t, struct mbufpool_pool *none)
{
	struct mbufpool_pool other = MBUFPOOL_NONE;
	uint64_t value = 77;

	MUST(mbufpool_pool_split(none, &other) == MBUFPOOL_STRANGER && other.at == NULL);
	MUST(mbufpool_pool_get(none, &value, 1) == MBUFPOOL_STRANGER && value == 77);
	MUST(mbufpool_pool_get_one(none, &value) == MBUFPOOL_STRANGER && value == 77);
	MUST(mbufpool_pool_put(none, &value, 1) == MBUFPOOL_STRANGER);
	MUST(mbufpool_pool_put_one(none, value) == MBUFPOOL_STRANGER);
	MUST(mbufpool_pool_flush(none) == MBUFPOOL_STRANGER);
	MUST(mbufpool_pool_count(none, &value) == MBUFPOOL_STRANGER && value == 77);
	mbufpool_pool_end(none);
	MUST(mbufpool_pool_open(8, 1, 1, NULL) == MBUFPOOL_STRANGER);
	t->calls += 9;
}

/* ---- the end of a pool of packets ---- */

/* What a pool that was closed left, by calls with room for any number of bytes. */
static void look_at_ending(struct thread *t, struct mbufpool_statement *e)
{
	struct mbufpool_counts c = { 7, 7, 7 };
	uint32_t lost[MOST], status = mbufpool_statement_counts(e, &c), room = below(t, 40), i;
	size_t n = mbufpool_statement_lost(e, lost, MOST), length;
	char text[40];

	MUST(status == 0 || status == MBUFPOOL_STRANGER);
	for (i = 1; i < n && i < MOST; i++)
		MUST(lost[i - 1] < lost[i]);
	memset(text, '#', sizeof(text));
	length = below(t, 2) ? mbufpool_statement_json(e, text, room) :
			       mbufpool_statement_text(e, text, room);
	MUST((length == 0) == (status != 0));
	for (i = 0; i < sizeof(text); i++)
		MUST((text[i] == '#') == (i >= room || i >= length));
	if (status == 0)
		MUST(n == 0 && c.available + c.in_use == c.population);
	else
		MUST(c.population == 7 && c.available == 7 && c.in_use == 7);
}

/* ---- handles without an owner, and pools that there can't be ---- */

/* Each call of a worker by a handle without one, which may be NULL: a stranger's, and what it would
 * have written is as it was. */
static void call_no_worker(struct thread *t, struct mbufpool_worker *w)
{
	struct mbufpool_segment s = { 7, 7, 7, 7, 7 };
	struct mbufpool_packet p[4] = { { 7, 7 }, { 7, 7 }, { 7, 7 }, { 7, 7 } };
	uint32_t a = any(t), b = any(t), n = 77, i;

	MUST(mbufpool_worker_alloc(w, p) == MBUFPOOL_STRANGER);
	MUST(mbufpool_worker_alloc_bulk(w, p, 4) == MBUFPOOL_STRANGER);
	MUST(mbufpool_worker_clone(w, a, p) == MBUFPOOL_STRANGER);
	for (i = 0; i < 4; i++)
		MUST(p[i].slot == 7 && p[i].element == 7);
	MUST(mbufpool_worker_free(w, a) == MBUFPOOL_STRANGER);
	MUST(mbufpool_worker_append(w, a, 1, &n) == MBUFPOOL_STRANGER);
	MUST(mbufpool_worker_prepend(w, a, 1, &n) == MBUFPOOL_STRANGER);
	MUST(mbufpool_worker_adj(w, a, 1, &n) == MBUFPOOL_STRANGER);
	MUST(mbufpool_worker_trim(w, a, 1, &n) == MBUFPOOL_STRANGER);
	MUST(mbufpool_worker_chain(w, a, b) == MBUFPOOL_STRANGER);
	MUST(mbufpool_worker_attach(w, a, b) == MBUFPOOL_STRANGER);
	MUST(mbufpool_worker_detach(w, a) == MBUFPOOL_STRANGER);
	MUST(mbufpool_worker_offer(w, a, b) == MBUFPOOL_STRANGER);
	MUST(mbufpool_worker_take(w, a, &n) == MBUFPOOL_STRANGER);
	MUST(mbufpool_worker_refcnt(w, a, &n) == MBUFPOOL_STRANGER);
	MUST(mbufpool_worker_pkt_len(w, a, &n) == MBUFPOOL_STRANGER);
	MUST(mbufpool_worker_nb_segs(w, a, &n) == MBUFPOOL_STRANGER && n == 77);
	MUST(mbufpool_worker_segment(w, a, b, &s) == MBUFPOOL_STRANGER && s.element == 7 && s.buf == 7);
	MUST(mbufpool_worker_flush(w) == MBUFPOOL_STRANGER);
	MUST(mbufpool_worker_changes_left(w) == 0);
	mbufpool_worker_end(w);
	t->calls += 20;
}

/* The same of a worker of a guarded pool. */
static void call_no_guard(struct thread *t, struct mbufpool_guard *g)
{
	struct mbufpool_guard other = MBUFPOOL_NONE;
	uint32_t list[2] = { 5, 6 };
	uint64_t count = 8, taken = 77;

	MUST(mbufpool_guard_split(g, &other) == MBUFPOOL_STRANGER && other.at == NULL);
	MUST(mbufpool_guard_split(&other, g) == MBUFPOOL_STRANGER && other.at == NULL);
	MUST(mbufpool_guard_get(g, list, 2) == MBUFPOOL_STRANGER);
	MUST(mbufpool_guard_get_one(g, list) == MBUFPOOL_STRANGER);
	MUST(mbufpool_guard_put(g, list, 2, &taken) == MBUFPOOL_STRANGER && taken == 0);
	MUST(mbufpool_guard_put_one(g, list[0]) == MBUFPOOL_STRANGER);
	MUST(mbufpool_guard_flush(g) == MBUFPOOL_STRANGER);
	MUST(mbufpool_guard_count(g, &count) == MBUFPOOL_STRANGER && count == 8);
	MUST(mbufpool_guard_stale(g, list) == MBUFPOOL_STRANGER);
	MUST(list[0] == 5 && list[1] == 6);
	mbufpool_guard_end(g);
	t->calls += 10;
}

/* A slot is stale once its packet is freed, whatever stands in that place: until 2^24 packets went from
 * there. (Where a slot begins again isn't tried, but for a place's first ones.) */
static void free_stale(struct thread *t)
{
	struct mbufpool_limits l = { 9, 3, 1, 0, 64, 1, 10 };
	struct mbufpool_worker one = MBUFPOOL_NONE;
	struct mbufpool_packet p = { 0, 0 }, q;
	struct mbufpool_statement e = MBUFPOOL_NONE;
	uint32_t first, n, i;

	MUST(mbufpool_worker_open(&l, &one, 1) == 0);
	MUST(mbufpool_worker_alloc(&one, &p) == 0 && p.slot == 0);
	for (first = p.slot, i = 1; i < 300; i++) {
		MUST(mbufpool_worker_free(&one, p.slot) == 0);
		MUST(mbufpool_worker_alloc(&one, &q) == 0 && q.slot == p.slot + SLOTS);
		MUST(mbufpool_worker_free(&one, p.slot) == MBUFPOOL_NO_SUCH_PACKET);
		MUST(mbufpool_worker_free(&one, first) == MBUFPOOL_NO_SUCH_PACKET);
		MUST(mbufpool_worker_pkt_len(&one, p.slot, &n) == MBUFPOOL_NO_SUCH_PACKET);
		MUST(mbufpool_worker_chain(&one, q.slot, p.slot) == MBUFPOOL_NO_SUCH_PACKET);
		MUST(mbufpool_worker_pkt_len(&one, q.slot, &n) == 0 && n == 0);
		p = q;
	}
	MUST(mbufpool_worker_close(&one, 1, &e) == 0);
	mbufpool_statement_end(&e);
	t->calls += 1800;
}

/* Nothing is given to a handle that is NULL, and nothing is done. */
static void open_none(struct thread *t)
{
	struct mbufpool_limits l = { 9, 3, 1, 0, 64, 1, 10 };
	struct mbufpool_worker one = MBUFPOOL_NONE;
	struct mbufpool_statement e = MBUFPOOL_NONE;

	MUST(mbufpool_guard_open(9, 3, 0, 1, 10, NULL) == MBUFPOOL_STRANGER);
	MUST(mbufpool_guard_open(0, 3, 0, 1, 10, NULL) == MBUFPOOL_STRANGER);
	MUST(mbufpool_worker_open(&l, NULL, 1) == MBUFPOOL_STRANGER);
	MUST(mbufpool_worker_open(&l, NULL, 0) == MBUFPOOL_BAD_POOL);
	MUST(mbufpool_worker_open(&l, &one, 1) == 0);
	MUST(mbufpool_worker_close(&one, 1, NULL) == MBUFPOOL_STRANGER && one.at != NULL);
	MUST(mbufpool_worker_close(NULL, 1, &e) == MBUFPOOL_STRANGER && e.at == NULL);
	MUST(mbufpool_worker_close(NULL, 0, &e) == MBUFPOOL_STRANGER && e.at == NULL);
	MUST(mbufpool_worker_close(&one, 1, &e) == 0 && e.at != NULL);
	mbufpool_statement_end(NULL);
	mbufpool_statement_end(&e);
	t->calls += 9;
}

static void call_none(struct thread *t)
{
	struct mbufpool_worker none = MBUFPOOL_NONE;
	struct mbufpool_guard no_guard = MBUFPOOL_NONE;
	struct mbufpool_pool no_pool = MBUFPOOL_NONE;
	struct mbufpool_statement no_ending = MBUFPOOL_NONE;

	call_no_worker(t, &none);
	call_no_worker(t, NULL);
	call_no_guard(t, &no_guard);
	call_no_guard(t, NULL);
	open_none(t);
	free_stale(t);
	call_no_pool(t, &no_pool);
	call_no_pool(t, NULL);
	MUST(mbufpool_worker_close(&none, 1, &no_ending) == MBUFPOOL_STRANGER && no_ending.at == NULL);
	MUST(mbufpool_worker_close(&none, 0, &no_ending) == MBUFPOOL_STRANGER);
	look_at_ending(t, &no_ending);
	look_at_ending(t, NULL);
	mbufpool_statement_end(&no_ending);
	t->calls += 2;
}

/* Whether there can be a pool of these limits, by the header. */
static int is_pool(const struct mbufpool_limits *l)
{
	return l->population >= 1 && l->population <= 16777214 && l->cache <= 512 &&
		l->cache * 3 / 2 <= l->population && l->workers >= 1 && l->workers <= 64 &&
		l->desks <= 64 && l->buf <= 65535 && l->ref_limit >= 1 && l->ref_limit <= 65535 &&
		l->tries >= 1 && l->tries <= 1000000;
}

/* Closes the pool of these n handles, which have this many workers, all of one pool that are not
 * ended; before, with one handle fewer, and with a worker of another pool. */
static void close_some(struct thread *t, struct mbufpool_worker *w, uint32_t n, uint32_t there)
{
	struct mbufpool_limits one = { 3, 1, 1, 0, 64, 1, 10 };
	struct mbufpool_worker both[2] = { MBUFPOOL_NONE };
	struct mbufpool_statement e = MBUFPOOL_NONE;
	uint32_t last = n - 1, status;

	if (there == 0) {
		MUST(told(t, mbufpool_worker_close(w, n, &e)) == MBUFPOOL_STRANGER && e.at == NULL);
		look_at_ending(t, &e);
		return;
	}
	while (w[last].at == NULL)
		last--;
	status = told(t, mbufpool_worker_close(w, last, &e));
	MUST(status == (there == 1 ? MBUFPOOL_STRANGER : MBUFPOOL_IN_USE) && w[last].at != NULL);
	MUST(mbufpool_worker_open(&one, &both[1], 1) == 0);
	both[0] = w[last];
	MUST(told(t, mbufpool_worker_close(both, 2, &e)) == MBUFPOOL_STRANGER && e.at == NULL);
	w[last] = both[0];
	MUST(told(t, mbufpool_worker_close(&both[1], 1, &e)) == 0 && both[1].at == NULL);
	look_at_ending(t, &e);
	MUST(told(t, mbufpool_worker_close(w, n, &e)) == 0);
	for (last = 0; last < n; last++)
		MUST(w[last].at == NULL);
	look_at_ending(t, &e);
	mbufpool_statement_end(&e);
	MUST(e.at == NULL);
	look_at_ending(t, &e);
}

static void call_open(struct thread *t)
{
	struct mbufpool_limits l = { 1 + below(t, MOST), below(t, 64), 1 + below(t, 4), below(t, 4),
		2048, 10, 10 };
	struct mbufpool_worker w[4] = { MBUFPOOL_NONE };
	uint32_t n, status, i, there = 0;

	/* (a pool of millions takes its time) */
	switch (below(t, 8)) {
	case 0: n = any(t), l.population = n < 100000 || n > 16777214 ? n : 1; break;
	case 1: l.cache = any(t); break;
	case 2: l.workers = any(t); break;
	case 3: l.desks = any(t); break;
	case 4: l.buf = any(t); break;
	case 5: l.ref_limit = any(t); break;
	case 6: l.tries = any(t); break;
	default: break;
	}
	n = below(t, 8) ? l.workers & 3 : below(t, 4);
	status = told(t, mbufpool_worker_open(&l, w, n));
	MUST(status == (is_pool(&l) && n == l.workers ? 0 : MBUFPOOL_BAD_POOL));
	for (i = 0; i < 4; i++) {
		MUST((w[i].at != NULL) == (status == 0 && i < n));
		if (below(t, 2))
			mbufpool_worker_end(&w[i]);
	}
	/* Workers that are left stay where an open over them is refused, and close what is left. */
	l.workers = 5;
	for (i = 0; i < 4; i++)
		there += w[i].at != NULL;
	MUST(mbufpool_worker_open(&l, w, 4) == MBUFPOOL_BAD_POOL);
	close_some(t, w, 4, there);
}

/* ---- a pool, and its end ---- */

static void *call_all(void *arg)
{
	struct thread *t = (struct thread *)arg;
	unsigned long until = t->calls + CALLS_OF_POOL;

	while (t->calls < until) {
		switch (below(t, 1000)) {
		case 0: open_values(t); break;
		case 1: call_open(t); break;
		case 2: call_none(t); break;
		default: below(t, 4) ? call_worker(t) : call_pool(t); break;
		}
	}
	return NULL;
}

/* One pool of packets and one of values, which all threads call, and after which nothing is
 * missing. */
static void one_pool(struct thread *t, uint32_t threads)
{
	struct mbufpool_worker w[MOST_THREADS] = { MBUFPOOL_NONE };
	struct mbufpool_packet p;
	uint32_t i, found = 0, slot[SLOTS];

	limits.population = 1 + below(t, below(t, 4) ? 60 : MOST / 2);
	limits.cache = below(t, limits.population * 2 / 3 + 1);
	limits.workers = threads;
	limits.desks = below(t, 8);
	limits.buf = below(t, 4) ? 2048 : below(t, 65536);
	limits.ref_limit = below(t, 4) ? 65535 : 1 + below(t, 4);
	limits.tries = threads == 1 ? 1 + below(t, 10) : 1000000;
	MUST(is_pool(&limits));
	MUST(mbufpool_worker_open(&limits, w, threads) == 0);
	begin_values(t, threads);
	for (i = 0; i < threads; i++) {
		t[i].worker = w[i];
		begin_slots(&t[i]);
		MUST(i == 0 || pthread_create(&t[i].id, NULL, call_all, &t[i]) == 0);
	}
	call_all(&t[0]);
	for (i = 1; i < threads; i++)
		pthread_join(t[i].id, NULL);
	for (i = 0; i < threads; i++)
		clear_worker(&t[i]);
	end_values(t, threads);
	for (found = 0; mbufpool_worker_alloc(&t[0].worker, &p) == 0; found++)
		slot[found] = p.slot;
	MUST(found == limits.population);
	for (i = 0; below(t, 2) && i < found; i++)
		MUST(mbufpool_worker_free(&t[0].worker, slot[i]) == 0);
	for (i = 0; i < threads; i++) {
		w[threads - 1 - i] = t[i].worker;
		t[i].worker.at = NULL;
	}
	close_some(&t[0], w, threads, threads);
}

int main(int argc, char **argv)
{
	static struct thread t[MOST_THREADS];
	unsigned long wanted = argc > 1 ? strtoul(argv[1], NULL, 10) : 1000000;
	unsigned long threads = argc > 2 ? strtoul(argv[2], NULL, 10) : 1, calls = 0, pools = 0,
		      sum, i, k;

	if (threads < 1 || threads > MOST_THREADS) {
		fprintf(stderr, "%s: 1 to %d threads\n", argv[0], MOST_THREADS);
		return 2;
	}
	seed = argc > 3 ? strtoul(argv[3], NULL, 10) : 1;
	for (i = 0; i < threads; i++)
		t[i].state = (seed * MOST_THREADS + i + 1) * 0x9e3779b97f4a7c15u;
	for (; calls < wanted; pools++) {
		one_pool(t, (uint32_t)threads);
		for (calls = 0, i = 0; i < threads; i++)
			calls += t[i].calls;
	}
	printf("%lu calls by %lu threads in %lu pools, seed %lu; by their answers:\n", calls, threads,
		pools, seed);
	for (k = 0; k < STATUSES; k++) {
		for (sum = 0, i = 0; i < threads; i++)
			sum += t[i].answers[k];
		if (sum)
			printf("%12lu  %s\n", sum, mbufpool_strerror((uint32_t)k));
	}
	printf("after each pool all its elements could be had again\n");
	return 0;
}
