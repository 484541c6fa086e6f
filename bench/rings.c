/* rings.c - a packet handed over by rte_ring: a pointer to it, alone or with its first cache line
 * written before and read behind, or its 648 bytes copied in and out, as many as a packet of mbufpool.h
 * has. A place has a ring of one element. */
#include <stdlib.h>
#include <string.h>

#include <rte_ring.h>

#include "rounds.h"

#define PACKET 648

struct packet {
	uint32_t serial;
	uint32_t length; /* what is written and read where its line is to pass as well */
	uint8_t rest[PACKET - 2 * sizeof(uint32_t)];
};

struct hand {
	struct rte_ring *place[2];
	struct packet *packet, own;
	uint32_t length;
} __rte_cache_aligned;

struct ring_pool {
	struct hand hand[2];
	struct packet packet;
};

static __rte_always_inline bool
offer_pointer(void *user, unsigned int place)
{
	const struct hand *h = user;

	return rte_ring_enqueue(h->place[place], h->packet) == 0;
}

static __rte_always_inline bool
take_pointer(void *user, unsigned int place)
{
	struct hand *h = user;

	return rte_ring_dequeue(h->place[place], (void **)&h->packet) == 0;
}

static __rte_always_inline bool
offer_written(void *user, unsigned int place)
{
	struct hand *h = user;

	h->packet->length = h->length + 1;
	return offer_pointer(user, place);
}

static __rte_always_inline bool
take_read(void *user, unsigned int place)
{
	struct hand *h = user;

	if (!take_pointer(user, place))
		return false;
	h->length = h->packet->length;
	return true;
}

static __rte_always_inline bool
offer_copy(void *user, unsigned int place)
{
	struct hand *h = user;

	return rte_ring_enqueue_elem(h->place[place], &h->own, sizeof(h->own)) == 0;
}

static __rte_always_inline bool
take_copy(void *user, unsigned int place)
{
	struct hand *h = user;

	return rte_ring_dequeue_elem(h->place[place], &h->own, sizeof(h->own)) == 0;
}

static void
write_serial(void *user, uint32_t serial)
{
	struct hand *h = user;

	h->packet->serial = serial;
}

static uint32_t
read_serial(void *user)
{
	const struct hand *h = user;

	return h->packet->serial;
}

/* The packet has to be with the first of both again, and so on no ring. */
static int64_t
missing(struct pool *pool)
{
	const struct ring_pool *p = pool->at;

	return rte_ring_count(p->hand[0].place[0]) + rte_ring_count(p->hand[0].place[1]);
}

static void
end(struct pool *pool)
{
	struct ring_pool *p = pool->at;

	rte_ring_free(p->hand[0].place[0]);
	rte_ring_free(p->hand[0].place[1]);
	free(p);
}

static const struct calls pointers = {
	.offer = offer_pointer,
	.take = take_pointer,
	.write = write_serial,
	.read = read_serial,
	.missing = missing,
	.close = end,
};
HAND_PLAYS(pointers)

static const struct calls lines = {
	.offer = offer_written,
	.take = take_read,
	.write = write_serial,
	.read = read_serial,
	.missing = missing,
	.close = end,
};
HAND_PLAYS(lines)

static const struct calls copies = {
	.offer = offer_copy,
	.take = take_copy,
	.write = write_serial,
	.read = read_serial,
	.missing = missing,
	.close = end,
};
HAND_PLAYS(copies)

bool
make_places(struct rte_ring *place[2], unsigned int size, unsigned int flags)
{
	place[0] = rte_ring_create_elem("bench-there", size, 2, SOCKET_ID_ANY, flags);
	place[1] = rte_ring_create_elem("bench-back", size, 2, SOCKET_ID_ANY, flags);
	return place[0] != NULL && place[1] != NULL;
}

bool
open_handed_ring(const struct subject *subject, const struct cell *cell, struct pool *pool)
{
	const bool is_copied = strcmp(subject->name, "ring_copy") == 0;
	const bool is_single = strcmp(subject->name, "ring_sp_sc") == 0;
	const bool is_read = strcmp(subject->name, "ring_read") == 0;
	struct ring_pool *p = aligned_alloc(RTE_CACHE_LINE_SIZE, sizeof(*p));
	unsigned int i;

	if (p == NULL)
		return false;
	memset(p, 0, sizeof(*p));
	pool->at = p;
	if (!make_places(p->hand[0].place, is_copied ? PACKET : sizeof(void *),
		    is_single ? RING_F_SP_ENQ | RING_F_SC_DEQ : 0)) {
		end(pool);
		return false;
	}
	memcpy(p->hand[1].place, p->hand[0].place, sizeof(p->hand[0].place));
	for (i = 0; i < cell->threads; i++) {
		p->hand[i].packet = is_copied ? &p->hand[i].own : &p->packet;
		pool->user[i] = &p->hand[i];
	}
	pool->calls = is_copied ? &copies : is_read ? &lines : &pointers;
	if (is_copied)
		copies_hand(cell->threads, pool);
	else if (is_read)
		lines_hand(cell->threads, pool);
	else
		pointers_hand(cell->threads, pool);
	return true;
}

const struct subject ring_sp_sc_subject = {
	.name = "ring_sp_sc",
	.most_threads = 2,
	.open = { [HANDED] = open_handed_ring },
};

const struct subject ring_read_subject = {
	.name = "ring_read",
	.most_threads = 2,
	.open = { [HANDED] = open_handed_ring },
};

const struct subject ring_copy_subject = {
	.name = "ring_copy",
	.most_threads = 2,
	.open = { [HANDED] = open_handed_ring },
};
