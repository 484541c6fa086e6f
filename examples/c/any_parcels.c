/* any_parcels.c - packets that are sent and received with any numbers: slots of packets that went, too
 * little room, parcels that weren't received yet or were before, handles without a worker, and NULL for a
 * handle. A packet has to come as it went, with its segments, lengths and bases, whichever thread receives
 * it, also where its parcel was one pointer in between. At the end of a pool all its elements are
 * available, or the parcels that are left are given up, and the close has to name what they hold and
 * nothing else.
 *
 *     make any_parcels && ./any_parcels [CALLS [THREADS [SEED]]]
 *
 * Pools are made one after the other, each for some thousand calls by each of THREADS threads, which pass
 * parcels to one another over a shelf. */
#include <pthread.h>
#include <stdio.h>
#include <stdlib.h>
#include <string.h>

#include "mbufpool.h"

#define MOST_THREADS 4
#define PLACES 256
#define MOST 400 /* elements of a pool */
#define MOST_SEGMENTS 32
#define BOXES 6 /* of each thread */
#define MOST_BOXES (BOXES * MOST_THREADS)
#define SHELF 5 /* boxes that lie between threads */
#define CALLS_OF_POOL 5000
#define STATUSES 32

/* What a packet is, by the calls that say so. */
struct look {
	uint32_t length, segments;
	struct mbufpool_segment segment[MOST_SEGMENTS];
};

/* A parcel with room for any packet. */
struct letter {
	struct mbufpool_parcel parcel;
	struct mbufpool_parcel_segment segment[MOST_SEGMENTS];
};

/* A letter, and what its packet was when it was sent. One thread at a time has it. */
struct box {
	struct letter letter;
	struct look was;
};

/* A thread: its worker, its boxes, its numbers, and what it knows of its own. */
struct thread {
	pthread_t id;
	uint64_t state;
	unsigned long calls, answers[STATUSES];
	struct mbufpool_worker worker;
	struct box *box[MOST_BOXES];
	uint32_t boxes, packets;
	unsigned char full[PLACES]; /* which of its worker's places have a packet */
	uint32_t slot[PLACES];      /* the slot of each, or of the next packet there */
};

static struct mbufpool_limits limits;
static struct box boxes[MOST_BOXES], *shelf[SHELF];
static unsigned long seed = 1;

/* Ends the program unless this holds. */
#define MUST(what) \
	do { \
		if (!(what)) { \
			printf("line %d, seed %lu: not so: %s\n", __LINE__, seed, #what); \
			exit(1); \
		} \
	} while (0)

/* ---- numbers ---- */

static uint32_t below(struct thread *t, uint32_t n)
{
	t->state ^= t->state << 13;
	t->state ^= t->state >> 7;
	t->state ^= t->state << 17;
	return (uint32_t)((t->state >> 11) % n);
}

static uint32_t told(struct thread *t, uint32_t status)
{
	MUST(status < STATUSES);
	t->calls++;
	t->answers[status]++;
	return status;
}

/* ---- packets ---- */

static int is_full(const struct thread *t, uint32_t slot)
{
	return t->full[MBUFPOOL_PLACE(slot)] && t->slot[MBUFPOOL_PLACE(slot)] == slot;
}

/* A packet stands in the lowest place that was free. */
static void has_slot(struct thread *t, uint32_t slot)
{
	uint32_t place = 0;

	while (t->full[place])
		place++;
	MUST(MBUFPOOL_PLACE(slot) == place && t->slot[place] == slot);
	t->full[place] = 1;
	t->packets++;
}

/* The packet went, and its slot stands for nothing: the next one there has another. */
static void has_gone(struct thread *t, uint32_t slot)
{
	t->full[MBUFPOOL_PLACE(slot)] = 0;
	t->slot[MBUFPOOL_PLACE(slot)] += PLACES;
	t->packets--;
}

/* Mostly a slot as it is now, at times one of a packet that went, or any number. */
static uint32_t any_slot(struct thread *t)
{
	uint32_t place = t->packets != 0 && below(t, 8) ? below(t, t->packets) : below(t, PLACES);

	switch (below(t, 16)) {
	case 0: return below(t, UINT32_MAX);
	case 1: return t->slot[place] - PLACES * (1 + below(t, 3));
	case 2: return t->slot[place] + PLACES;
	default: return t->slot[place];
	}
}

/* Looks at a packet: its segments add up to it, and lie in their buffers. */
static void look_at(struct thread *t, uint32_t slot, struct look *out)
{
	uint32_t sum = 0, i;

	MUST(mbufpool_worker_pkt_len(&t->worker, slot, &out->length) == 0);
	MUST(mbufpool_worker_nb_segs(&t->worker, slot, &out->segments) == 0);
	MUST(out->segments >= 1 && out->segments <= MOST_SEGMENTS);
	for (i = 0; i < out->segments; i++) {
		MUST(mbufpool_worker_segment(&t->worker, slot, i, &out->segment[i]) == 0);
		MUST((uint32_t)out->segment[i].off + out->segment[i].len <= out->segment[i].buf);
		sum += out->segment[i].len;
	}
	MUST(sum == out->length);
}

static int is_same(const struct look *a, const struct look *b)
{
	const struct mbufpool_segment *x = a->segment, *y = b->segment;
	uint32_t i;

	if (a->length != b->length || a->segments != b->segments)
		return 0;
	for (i = 0; i < a->segments; i++, x++, y++)
		if (x->element != y->element || x->buffer != y->buffer || x->off != y->off ||
			x->len != y->len || x->buf != y->buf)
			return 0;
	return 1;
}

/* Makes packets, as many as it may have or fewer. */
static void make_some(struct thread *t, uint32_t n)
{
	struct mbufpool_packet p[PLACES];
	uint32_t i;

	if (told(t, mbufpool_worker_alloc_bulk(&t->worker, p, n)) == 0)
		for (i = 0; i < n; i++)
			has_slot(t, p[i].slot);
}

static void resize(struct thread *t, uint32_t slot, uint16_t length)
{
	uint32_t now;

	switch (below(t, 4)) {
	case 0: told(t, mbufpool_worker_append(&t->worker, slot, length, &now)); break;
	case 1: told(t, mbufpool_worker_prepend(&t->worker, slot, length, &now)); break;
	case 2: told(t, mbufpool_worker_adj(&t->worker, slot, length, &now)); break;
	default: told(t, mbufpool_worker_trim(&t->worker, slot, length, &now)); break;
	}
}

/* One call of a worker by which packets come, change or go, but for parcels. */
static void call_worker(struct thread *t)
{
	struct mbufpool_worker *w = &t->worker;
	uint32_t a = any_slot(t), b = any_slot(t), slot;
	struct mbufpool_packet clone;

	switch (below(t, 12)) {
	case 0:
	case 1:
		make_some(t, below(t, 4));
		return;
	case 2:
		if (told(t, mbufpool_worker_chain(w, a, b)) == 0)
			has_gone(t, b);
		return;
	case 3: told(t, mbufpool_worker_attach(w, a, b)); return;
	case 4: told(t, mbufpool_worker_detach(w, a)); return;
	case 5:
	case 6:
		if (told(t, mbufpool_worker_clone(w, a, &clone)) == 0)
			has_slot(t, clone.slot);
		return;
	case 7:
		if (told(t, mbufpool_worker_offer(w, a, below(t, 3))) == 0)
			has_gone(t, a);
		return;
	case 8:
		if (told(t, mbufpool_worker_take(w, below(t, 3), &slot)) == 0)
			has_slot(t, slot);
		return;
	case 9: resize(t, a, (uint16_t)below(t, 200)); return;
	case 10:
		if (below(t, 20) == 0)
			told(t, mbufpool_worker_flush(w));
		return;
	default:
		if (told(t, mbufpool_worker_free(w, a)) == 0)
			has_gone(t, a);
		return;
	}
}

/* ---- parcels ---- */

/* Whether a letter says what its packet was, and is else as it was before. */
static int is_written(const struct letter *letter, const struct letter *before, const struct look *was)
{
	const struct mbufpool_parcel_segment *s = letter->segment;
	const struct mbufpool_segment *of = was->segment;
	uint32_t i, indirect;

	if (letter->parcel.segments != was->segments)
		return 0;
	for (i = 0; i < was->segments; i++, s++, of++) {
		indirect = of->element != of->buffer;
		if (s->element != of->element || s->base != (indirect ? of->buffer : 0) || s->off != of->off ||
			s->len != of->len || s->buf != of->buf || s->indirect != indirect)
			return 0;
	}
	return memcmp(s, before->segment + i, (MOST_SEGMENTS - i) * sizeof(*s)) == 0;
}

/* Sends by one of both calls, and receives so. */
static uint32_t send_in(struct thread *t, uint32_t slot, struct letter *letter, uint32_t room)
{
	struct mbufpool_worker *w = &t->worker;

	return told(t, below(t, 2) ? mbufpool_worker_send(w, slot, &letter->parcel, room) :
		mbufpool_worker_send_segments(w, slot, &letter->parcel, letter->segment, room));
}

static uint32_t receive_of(struct thread *t, struct letter *letter, uint32_t *slot)
{
	struct mbufpool_worker *w = &t->worker;

	return told(t, below(t, 2) ? mbufpool_worker_receive(w, &letter->parcel, slot) :
		mbufpool_worker_receive_segments(w, &letter->parcel, letter->segment, letter->parcel.segments,
			slot));
}

/* Any packet, in any box, with any room. */
static void send_any(struct thread *t, struct box *box)
{
	const struct letter before = box->letter;
	uint32_t slot = any_slot(t), room = below(t, below(t, 4) ? 4 : MOST_SEGMENTS + 1), wanted = 0, status;

	if (before.parcel.segments != 0)
		wanted = MBUFPOOL_IN_USE;
	else if (!is_full(t, slot))
		wanted = MBUFPOOL_NO_SUCH_PACKET;
	else {
		look_at(t, slot, &box->was);
		wanted = box->was.segments > room ? MBUFPOOL_NO_ROOM : 0;
	}
	status = send_in(t, slot, &box->letter, room);
	MUST(status == wanted);
	if (status != 0) {
		MUST(memcmp(&box->letter, &before, sizeof(before)) == 0);
		return;
	}
	has_gone(t, slot);
	MUST(is_written(&box->letter, &before, &box->was));
	MUST(send_in(t, slot, &box->letter, room) == MBUFPOOL_IN_USE);
	MUST(mbufpool_worker_free(&t->worker, slot) == MBUFPOOL_NO_SUCH_PACKET);
}

/* The parcel of any box, where it has one. Once it's received it isn't received again. */
static void receive_any(struct thread *t, struct box *box)
{
	const struct letter before = box->letter;
	uint32_t slot = 77, wanted = 0, status;
	struct look now;

	if (before.parcel.segments == 0)
		wanted = MBUFPOOL_NO_SUCH_PACKET;
	else if (t->packets == PLACES)
		wanted = MBUFPOOL_PACKETS_FULL;
	status = receive_of(t, &box->letter, &slot);
	MUST(status == wanted);
	if (status != 0) {
		MUST(slot == 77 && memcmp(&box->letter, &before, sizeof(before)) == 0);
		return;
	}
	has_slot(t, slot);
	look_at(t, slot, &now);
	MUST(is_same(&now, &box->was) && box->letter.parcel.segments == 0);
	MUST(receive_of(t, &box->letter, &slot) == MBUFPOOL_NO_SUCH_PACKET);
}

/* A parcel goes to another box by its bytes: the copy is received then. */
static void copy_any(struct box *from, struct box *to)
{
	if (from->letter.parcel.segments == 0 || to->letter.parcel.segments != 0)
		return;
	*to = *from;
	from->letter.parcel.segments = 0;
}

/* Any number of so many bits, at times the greatest. */
static uint32_t any_of_bits(struct thread *t, uint32_t bits)
{
	return below(t, 8) ? below(t, 1u << bits) : (1u << bits) - 1;
}

/* Any parcel of one segment, that no pool has to have sent. */
static void write_any(struct thread *t, struct letter *letter)
{
	struct mbufpool_parcel_segment *of = letter->segment;

	letter->parcel.segments = 1;
	of->element = any_of_bits(t, 24);
	of->indirect = below(t, 8) == 0;
	of->base = of->indirect ? any_of_bits(t, 24) : 0;
	of->off = (uint16_t)any_of_bits(t, 16);
	of->len = (uint16_t)any_of_bits(t, 16);
	of->buf = (uint16_t)any_of_bits(t, 16);
}

/* Makes a pointer of a parcel, and a parcel of that: the same bytes as before, in `letter` again. Of the
 * room for it, which isn't zeros, only that parcel is written, or nothing. */
static void pack_any(struct thread *t, struct letter *letter)
{
	const struct letter before = *letter;
	const struct mbufpool_parcel_segment *of = before.segment;
	const uint32_t buf = below(t, 8) ? of->buf : below(t, 1 << 16);
	const int is_alone = before.parcel.segments == 1 && !of->indirect && of->buf == buf;
	struct letter room, room_before;
	struct mbufpool_parcel *parcel;
	void *packed;

	memset(&room, 0x5a, sizeof(room));
	room_before = room;
	packed = mbufpool_parcel_pack(&letter->parcel, buf);
	parcel = mbufpool_parcel_unpack(packed, buf, &room.parcel);
	MUST((packed == letter) == !is_alone && (parcel == &room.parcel) == is_alone);
	if (is_alone) {
		MUST(letter->parcel.segments == 0);
		letter->parcel = room.parcel;
		letter->segment[0] = room.segment[0];
		room.parcel = room_before.parcel;
		room.segment[0] = room_before.segment[0];
	} else
		MUST(parcel == &letter->parcel);
	MUST(memcmp(letter, &before, sizeof(before)) == 0);
	MUST(memcmp(&room, &room_before, sizeof(room)) == 0);
}

/* The parcel of any box, and another that no pool knows. */
static void pack_both(struct thread *t, struct letter *letter)
{
	struct letter other;

	memset(&other, 0, sizeof(other));
	write_any(t, &other);
	pack_any(t, &other);
	pack_any(t, letter);
}

/* Lays a box on the shelf, or none, and takes what lies there. */
static void exchange(struct thread *t)
{
	struct box **place = &shelf[below(t, SHELF)], *box = NULL;

	if (t->boxes != 0 && below(t, 3))
		box = t->box[--t->boxes];
	box = __atomic_exchange_n(place, box, __ATOMIC_SEQ_CST);
	if (box == NULL)
		return;
	t->box[t->boxes++] = t->box[0];
	t->box[0] = box;
}

/* Makes as many packets as a worker may have, and receives what it can; then frees all. */
static void fill_up(struct thread *t)
{
	uint32_t place, i;

	make_some(t, PLACES - t->packets);
	for (i = 0; i < t->boxes; i++)
		receive_any(t, t->box[i]);
	for (place = 0; place < PLACES; place++)
		if (t->full[place]) {
			MUST(mbufpool_worker_free(&t->worker, t->slot[place]) == 0);
			has_gone(t, t->slot[place]);
		}
}

/* What has no worker sends and receives nothing, whatever lies in a box. */
static void call_no_worker(struct thread *t, struct mbufpool_worker *w, struct letter *letter)
{
	const struct letter before = *letter;
	const uint32_t n = before.parcel.segments;
	uint32_t slot = 77;

	MUST(mbufpool_worker_send(w, any_slot(t), &letter->parcel, 2) == MBUFPOOL_STRANGER);
	MUST(mbufpool_worker_send_segments(w, any_slot(t), &letter->parcel, letter->segment, 2) ==
		MBUFPOOL_STRANGER);
	MUST(mbufpool_worker_receive(w, &letter->parcel, &slot) == MBUFPOOL_STRANGER);
	MUST(mbufpool_worker_receive_segments(w, &letter->parcel, letter->segment, n, &slot) ==
		MBUFPOOL_STRANGER);
	MUST(slot == 77 && memcmp(letter, &before, sizeof(before)) == 0);
	t->calls += 4;
}

static void call_parcels(struct thread *t)
{
	struct mbufpool_worker none = MBUFPOOL_NONE;
	struct box *box;

	if (t->boxes == 0) {
		exchange(t);
		return;
	}
	box = t->box[below(t, t->boxes)];
	switch (below(t, 9)) {
	case 0: exchange(t); return;
	case 1: copy_any(box, t->box[below(t, t->boxes)]); return;
	case 2: call_no_worker(t, below(t, 2) ? &none : NULL, &box->letter); return;
	case 3: pack_both(t, &box->letter); return;
	case 4:
	case 5: receive_any(t, box); return;
	default: send_any(t, box); return;
	}
}

/* ---- a pool, and its end ---- */

static void *call_all(void *arg)
{
	struct thread *t = (struct thread *)arg;
	unsigned long until = t->calls + CALLS_OF_POOL;

	while (t->calls < until)
		if (below(t, 500) == 0)
			fill_up(t);
		else if (below(t, 3))
			call_worker(t);
		else
			call_parcels(t);
	return NULL;
}

/* Takes what lies on desks, frees all packets, and flushes. */
static void clear_worker(struct thread *t)
{
	uint32_t desk, place, slot;

	for (place = 0; place < PLACES; place++)
		MUST((mbufpool_worker_free(&t->worker, t->slot[place]) == 0) == t->full[place]);
	for (desk = 0; desk < limits.desks; desk++)
		while (mbufpool_worker_take(&t->worker, desk, &slot) == 0)
			MUST(mbufpool_worker_free(&t->worker, slot) == 0);
	MUST(mbufpool_worker_flush(&t->worker) == 0);
}

/* Receives each parcel that is left, once the worker's places are free, and frees its packet. */
static void receive_left(struct thread *t)
{
	uint32_t slot, i;

	for (i = 0; i < MOST_BOXES; i++)
		if (boxes[i].letter.parcel.segments != 0) {
			MUST(receive_of(t, &boxes[i].letter, &slot) == 0);
			MUST(mbufpool_worker_free(&t->worker, slot) == 0);
		}
	MUST(mbufpool_worker_flush(&t->worker) == 0);
}

/* Gives up each parcel that is left, and says of each element whether it is lost with one: the segments'
 * own, and those whose buffers they use. Returns how many that are. */
static size_t give_up_left(unsigned char *is_lost)
{
	struct mbufpool_parcel_segment *s;
	size_t all = 0;
	uint32_t i, k;

	memset(is_lost, 0, MOST);
	for (i = 0; i < MOST_BOXES; i++) {
		for (k = 0; k < boxes[i].letter.parcel.segments; k++) {
			s = &boxes[i].letter.segment[k];
			is_lost[s->element] = 1;
			if (s->indirect)
				is_lost[s->base] = 1;
		}
		boxes[i].letter.parcel.segments = 0;
	}
	for (i = 0; i < MOST; i++)
		all += is_lost[i];
	return all;
}

/* Closes the pool, of which so many elements are lost with parcels, and all others are free. */
static void close_pool(struct mbufpool_worker *w, uint32_t threads, const unsigned char *is_lost, size_t all)
{
	struct mbufpool_statement e = MBUFPOOL_NONE;
	struct mbufpool_counts c;
	uint32_t lost[MOST], i;

	MUST(mbufpool_worker_close(w, threads, &e) == 0);
	MUST(mbufpool_statement_lost(&e, lost, MOST) == all);
	for (i = 0; i < all; i++)
		MUST(is_lost[lost[i]] && (i == 0 || lost[i - 1] < lost[i]));
	if (all == 0)
		MUST(mbufpool_statement_counts(&e, &c) == 0 && c.population == limits.population &&
			c.available == limits.population && c.in_use == 0);
	else
		MUST(mbufpool_statement_counts(&e, &c) == MBUFPOOL_STRANGER);
	mbufpool_statement_end(&e);
}

/* All threads have ended, and the boxes lie where they were left. */
static void end_pool(struct thread *t, uint32_t threads)
{
	struct mbufpool_worker w[MOST_THREADS] = { MBUFPOOL_NONE };
	unsigned char is_lost[MOST] = { 0 };
	size_t all = 0;
	uint32_t i;

	for (i = 0; i < threads; i++)
		clear_worker(&t[i]);
	if (below(t, 2))
		receive_left(&t[below(t, threads)]);
	else
		all = give_up_left(is_lost);
	for (i = 0; i < threads; i++) {
		w[i] = t[i].worker;
		t[i].worker.at = NULL;
	}
	close_pool(w, threads, is_lost, all);
}

/* A thread has its boxes, and no packets yet. */
static void begin_thread(struct thread *t, uint32_t number)
{
	uint32_t i;

	memset(t->full, 0, sizeof(t->full));
	for (i = 0; i < PLACES; i++)
		t->slot[i] = i;
	for (i = 0; i < BOXES; i++)
		t->box[i] = &boxes[number * BOXES + i];
	t->boxes = BOXES;
	t->packets = 0;
}

static void one_pool(struct thread *t, uint32_t threads)
{
	struct mbufpool_worker w[MOST_THREADS] = { MBUFPOOL_NONE };
	uint32_t i;

	limits.population = below(t, 8) ? 1 + below(t, 60) : PLACES + 1 + below(t, MOST - PLACES);
	limits.cache = below(t, below(t, 2) ? 4 : limits.population * 2 / 3 + 1);
	if (limits.cache * 3 / 2 > limits.population)
		limits.cache = 0;
	limits.workers = threads;
	limits.desks = below(t, 3);
	limits.buf = 2048;
	limits.ref_limit = below(t, 4) ? 65535 : 1 + below(t, 4);
	limits.tries = threads == 1 ? 1 + below(t, 10) : 1000000;
	MUST(mbufpool_worker_open(&limits, w, threads) == 0);
	memset(shelf, 0, sizeof(shelf));
	for (i = 0; i < threads; i++) {
		t[i].worker = w[i];
		begin_thread(&t[i], i);
		MUST(i == 0 || pthread_create(&t[i].id, NULL, call_all, &t[i]) == 0);
	}
	call_all(&t[0]);
	for (i = 1; i < threads; i++)
		pthread_join(t[i].id, NULL);
	end_pool(t, threads);
}

int main(int argc, char **argv)
{
	static struct thread t[MOST_THREADS];
	unsigned long wanted = argc > 1 ? strtoul(argv[1], NULL, 10) : 1000000;
	unsigned long threads = argc > 2 ? strtoul(argv[2], NULL, 10) : 1, calls = 0, pools = 0,
		      sum, i, k;

	if (threads < 1 || threads > MOST_THREADS) {
		fprintf(stderr, "%s: 1 to %d threads\n", argv[0], MOST_THREADS);
		return 2;
	}
	seed = argc > 3 ? strtoul(argv[3], NULL, 10) : 1;
	for (i = 0; i < threads; i++)
		t[i].state = (seed * MOST_THREADS + i + 1) * 0x9e3779b97f4a7c15u;
	for (; calls < wanted; pools++) {
		one_pool(t, (uint32_t)threads);
		for (calls = 0, i = 0; i < threads; i++)
			calls += t[i].calls;
	}
	printf("%lu calls by %lu threads in %lu pools, seed %lu; by their answers:\n", calls, threads,
		pools, seed);
	for (k = 0; k < STATUSES; k++) {
		for (sum = 0, i = 0; i < threads; i++)
			sum += t[i].answers[k];
		if (sum)
			printf("%12lu  %s\n", sum, mbufpool_strerror((uint32_t)k));
	}
	printf("each packet came as it was sent, and what was lost was told\n");
	return 0;
}
