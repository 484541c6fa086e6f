/* multicast.c - a pipeline over four threads, each with a worker of its own: a receiver makes packets, a
 * router takes their headers off and clones them, and two transmitters free what comes to them, the one the
 * packets, the other the clones. From thread to thread a packet passes as a parcel, of which one pointer goes
 * over a ring, as an mbuf's does over an rte_ring. No byte of a packet's data is copied.
 *
 *     make multicast && ./multicast [PACKETS] */
#include <pthread.h>
#include <sched.h>
#include <stdio.h>
#include <stdlib.h>

#include "mbufpool.h"

#define POPULATION 1024
#define CACHE 32
#define BUFFER 2048
#define WORKERS 4
#define SLOTS 256 /* parcels that lie between two threads */
#define HEADER 14
#define LEAST 46 /* bytes of data behind a header */
#define LENGTHS 1455

/* A packet of one segment under way. */
struct one_segment {
	struct mbufpool_parcel parcel;
	struct mbufpool_parcel_segment segment;
};

/* A packet of one direct segment passes as the pointer alone. A clone passes in the parcel of its
 * element: no other packet that stands or is under way has that for its own, so the parcel is free. */
static struct one_segment parcels[POPULATION];

/* The buffers are the caller's, one for each element; a first word is enough here. It is read and
 * written as an atomic for the thread sanitizer alone, which can't see what the library orders. */
static uint32_t first_word[POPULATION];

/* A ring of pointers between two threads, which one of them fills and the other empties. */
struct ring {
	void *packed[SLOTS];
	unsigned long sent, taken;
};

struct stage {
	struct mbufpool_worker *worker;
	struct ring *from, *to[2];
	unsigned long packets, freed, bytes, wrong;
	int has_clones;
};

/* Whether to call again: other threads were faster, or have what is needed for a while. */
static int again(uint32_t status)
{
	switch (status) {
	case MBUFPOOL_CONTENDED:
	case MBUFPOOL_NO_ENTRIES:
	case MBUFPOOL_PACKETS_FULL: /* (not met here: a stage has two packets at most) */
		sched_yield();
		return 1;
	case 0:
		return 0;
	default:
		printf("refused: %s\n", mbufpool_strerror(status));
		exit(1);
	}
}

/* How many bytes of data the packet of this number has behind its header. */
static uint32_t length_of(unsigned long number)
{
	return LEAST + (uint32_t)(number % LENGTHS);
}

static void put_on(struct ring *r, void *packed)
{
	unsigned long at = __atomic_load_n(&r->sent, __ATOMIC_RELAXED);

	while (at - __atomic_load_n(&r->taken, __ATOMIC_SEQ_CST) == SLOTS)
		sched_yield();
	r->packed[at % SLOTS] = packed;
	__atomic_store_n(&r->sent, at + 1, __ATOMIC_SEQ_CST);
}

static void *take_off(struct ring *r)
{
	unsigned long at = __atomic_load_n(&r->taken, __ATOMIC_RELAXED);
	void *packed;

	while (__atomic_load_n(&r->sent, __ATOMIC_SEQ_CST) == at)
		sched_yield();
	packed = r->packed[at % SLOTS];
	__atomic_store_n(&r->taken, at + 1, __ATOMIC_SEQ_CST);
	return packed;
}

static void send_over(struct ring *r, struct mbufpool_worker *worker, uint32_t slot,
	struct mbufpool_parcel *parcel)
{
	while (again(mbufpool_worker_send(worker, slot, parcel, 1)))
		;
	put_on(r, mbufpool_parcel_pack(parcel, BUFFER));
}

/* Receives the next packet, and returns the pointer by which it came. */
static void *receive_from(struct ring *r, struct mbufpool_worker *worker, uint32_t *slot)
{
	void *packed = take_off(r);
	struct one_segment room;
	struct mbufpool_parcel *parcel = mbufpool_parcel_unpack(packed, BUFFER, &room.parcel);

	while (again(mbufpool_worker_receive(worker, parcel, slot)))
		;
	return packed;
}

static void *receive_all(void *arg)
{
	struct stage *s = (struct stage *)arg;
	struct one_segment away = { { 0 }, { 0, 0, 0, 0, 0, 0 } };
	struct mbufpool_packet packet;
	unsigned long number;
	uint32_t length;

	for (number = 0; number < s->packets; number++) {
		while (again(mbufpool_worker_alloc(s->worker, &packet)))
			;
		while (again(mbufpool_worker_append(s->worker, packet.slot,
			(uint16_t)(HEADER + length_of(number)), &length)))
			;
		__atomic_store_n(&first_word[packet.element], (uint32_t)number, __ATOMIC_RELAXED);
		send_over(s->to[0], s->worker, packet.slot, &away.parcel);
	}
	return NULL;
}

static void *route_all(void *arg)
{
	struct stage *s = (struct stage *)arg;
	struct one_segment away = { { 0 }, { 0, 0, 0, 0, 0, 0 } };
	struct mbufpool_packet clone;
	unsigned long number;
	uint32_t slot, length;

	for (number = 0; number < s->packets; number++) {
		receive_from(s->from, s->worker, &slot);
		while (again(mbufpool_worker_adj(s->worker, slot, HEADER, &length)))
			;
		s->wrong += length != length_of(number);
		while (again(mbufpool_worker_clone(s->worker, slot, &clone)))
			;
		send_over(s->to[0], s->worker, slot, &away.parcel);
		send_over(s->to[1], s->worker, clone.slot, &parcels[clone.element].parcel);
	}
	return NULL;
}

/* Whether a packet is the one of this number, and a clone came in the parcel of its element. */
static int is_right(struct stage *s, uint32_t slot, const void *packed, unsigned long number)
{
	struct mbufpool_segment segment;
	uint32_t length;

	while (again(mbufpool_worker_pkt_len(s->worker, slot, &length)))
		;
	while (again(mbufpool_worker_segment(s->worker, slot, 0, &segment)))
		;
	s->bytes += length;
	return length == length_of(number) && segment.len == length &&
		(packed == &parcels[segment.element]) == s->has_clones &&
		(segment.buffer != segment.element) == s->has_clones &&
		__atomic_load_n(&first_word[segment.buffer], __ATOMIC_RELAXED) == (uint32_t)number;
}

static void *transmit_all(void *arg)
{
	struct stage *s = (struct stage *)arg;
	unsigned long number;
	uint32_t slot;
	void *packed;

	for (number = 0; number < s->packets; number++) {
		packed = receive_from(s->from, s->worker, &slot);
		s->wrong += !is_right(s, slot, packed, number);
		while (again(mbufpool_worker_free(s->worker, slot)))
			;
		s->freed++;
	}
	return NULL;
}

/* Whether a pool that is closed has all its elements available. */
static int is_whole(struct mbufpool_worker *worker)
{
	struct mbufpool_statement ending = MBUFPOOL_NONE;
	struct mbufpool_counts counts = { 0, 0, 0 };

	if (mbufpool_worker_close(worker, WORKERS, &ending) == 0)
		mbufpool_statement_counts(&ending, &counts);
	mbufpool_statement_end(&ending);
	printf("of %lu elements %lu are available, %lu in use\n", (unsigned long)counts.population,
		(unsigned long)counts.available, (unsigned long)counts.in_use);
	return counts.population == POPULATION && counts.available == POPULATION && counts.in_use == 0;
}

int main(int argc, char **argv)
{
	static void *(*const work[WORKERS])(void *) = { receive_all, route_all, transmit_all, transmit_all };
	static struct ring received, packets, clones;
	struct mbufpool_limits limits = { POPULATION, CACHE, WORKERS, 0, BUFFER, 65535, 64 };
	struct mbufpool_worker worker[WORKERS] = { MBUFPOOL_NONE };
	struct stage stage[WORKERS] = {
		{ &worker[0], NULL, { &received, NULL }, 0, 0, 0, 0, 0 },
		{ &worker[1], &received, { &packets, &clones }, 0, 0, 0, 0, 0 },
		{ &worker[2], &packets, { NULL, NULL }, 0, 0, 0, 0, 0 },
		{ &worker[3], &clones, { NULL, NULL }, 0, 0, 0, 0, 1 },
	};
	unsigned long all = argc > 1 ? strtoul(argv[1], NULL, 10) : 10000000, bytes = 0, number;
	pthread_t thread[WORKERS];
	int k, failed = 0;

	if (mbufpool_worker_open(&limits, worker, WORKERS) != 0)
		return 1;
	for (k = 0; k < WORKERS; k++) {
		stage[k].packets = all;
		if (pthread_create(&thread[k], NULL, work[k], &stage[k]) != 0)
			return 1;
	}
	for (k = 0; k < WORKERS; k++)
		pthread_join(thread[k], NULL);
	for (number = 0; number < all; number++)
		bytes += length_of(number);
	printf("the router had %lu packets, wrong %lu\n", all, stage[1].wrong);
	for (k = 2; k < WORKERS; k++) {
		printf("transmitter %d freed %lu %s of %lu bytes, wrong %lu\n", k - 1, stage[k].freed,
			stage[k].has_clones ? "clones" : "packets", stage[k].bytes, stage[k].wrong);
		failed |= stage[k].freed != all || stage[k].bytes != bytes;
	}
	for (k = 0; k < WORKERS; k++)
		failed |= stage[k].wrong != 0;
	failed |= !is_whole(worker);
	return failed;
}
