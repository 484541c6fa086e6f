/* three_receivers.c - a sender clones each packet to three receivers, each a thread with a worker
 * of its own, over a desk for each. No byte is copied: the clones share the sender's buffer, which
 * is free again when the last of them is freed.
 *
 *     make three_receivers && ./three_receivers */
#include <pthread.h>
#include <sched.h>
#include <stdio.h>
#include <stdlib.h>

#include "mbufpool.h"

#define RECEIVERS 3
#define PACKETS 20000
#define POPULATION 200
#define LENGTH 60

struct receiver {
	struct mbufpool_worker *worker;
	uint32_t desk;
	unsigned long taken, wrong;
};

/* The buffers are the caller's, one for each element; a first word is enough here. It is read and
 * written as an atomic for the thread sanitizer alone, which can't see what the library orders. */
static uint32_t first_word[POPULATION];

/* Whether to call again: other threads were faster, or have what is needed for a while. */
static int again(uint32_t status)
{
	switch (status) {
	case MBUFPOOL_CONTENDED:
	case MBUFPOOL_NO_ENTRIES:
	case MBUFPOOL_DESK_TAKEN:
	case MBUFPOOL_DESK_EMPTY:
		sched_yield();
		return 1;
	case 0:
		return 0;
	default:
		printf("refused: %s\n", mbufpool_strerror(status));
		exit(1);
	}
}

static void send_all(struct mbufpool_worker *worker)
{
	struct mbufpool_packet packet, clone;
	uint32_t number, desk, length;

	for (number = 1; number <= PACKETS; number++) {
		while (again(mbufpool_worker_alloc(worker, &packet)))
			;
		while (again(mbufpool_worker_append(worker, packet.slot, LENGTH, &length)))
			;
		__atomic_store_n(&first_word[packet.element], number, __ATOMIC_RELAXED);
		for (desk = 0; desk < RECEIVERS; desk++) {
			while (again(mbufpool_worker_clone(worker, packet.slot, &clone)))
				;
			while (again(mbufpool_worker_offer(worker, clone.slot, desk)))
				;
		}
		while (again(mbufpool_worker_free(worker, packet.slot)))
			;
	}
	while (again(mbufpool_worker_flush(worker)))
		;
}

static void *receive_all(void *arg)
{
	struct receiver *me = (struct receiver *)arg;
	struct mbufpool_segment segment;
	uint32_t number, slot, length;

	for (number = 1; number <= PACKETS; number++) {
		while (again(mbufpool_worker_take(me->worker, me->desk, &slot)))
			;
		me->taken++;
		while (again(mbufpool_worker_pkt_len(me->worker, slot, &length)))
			;
		while (again(mbufpool_worker_segment(me->worker, slot, 0, &segment)))
			;
		if (length != LENGTH || segment.len != LENGTH ||
			segment.element == segment.buffer ||
			__atomic_load_n(&first_word[segment.buffer], __ATOMIC_RELAXED) != number)
			me->wrong++;
		while (again(mbufpool_worker_free(me->worker, slot)))
			;
	}
	while (again(mbufpool_worker_flush(me->worker)))
		;
	return NULL;
}

int main(void)
{
	struct mbufpool_limits limits = { POPULATION, 16, RECEIVERS + 1, RECEIVERS, 2048, 65535,
		64 };
	struct mbufpool_worker worker[RECEIVERS + 1] = { MBUFPOOL_NONE };
	struct receiver receiver[RECEIVERS];
	struct mbufpool_packet packet;
	pthread_t thread[RECEIVERS];
	unsigned long free_again = 0;
	int r, failed = 0;

	if (mbufpool_worker_open(&limits, worker, RECEIVERS + 1) != 0)
		return 1;
	for (r = 0; r < RECEIVERS; r++) {
		receiver[r].worker = &worker[r + 1];
		receiver[r].desk = (uint32_t)r;
		receiver[r].taken = receiver[r].wrong = 0;
		if (pthread_create(&thread[r], NULL, receive_all, &receiver[r]) != 0)
			return 1;
	}
	send_all(&worker[0]);
	for (r = 0; r < RECEIVERS; r++) {
		pthread_join(thread[r], NULL);
		printf("receiver %d took %lu clones of %d, wrong %lu\n", r + 1, receiver[r].taken,
			PACKETS, receiver[r].wrong);
		failed |= receiver[r].taken != PACKETS || receiver[r].wrong != 0;
	}
	while (mbufpool_worker_alloc(&worker[0], &packet) == 0)
		free_again++;
	printf("%lu of %d elements can be had again\n", free_again, POPULATION);
	for (r = 0; r <= RECEIVERS; r++)
		mbufpool_worker_end(&worker[r]);
	return failed || free_again != POPULATION;
}
