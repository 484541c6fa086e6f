/* library.c - mbufpool.h from C: its pools of values, and its workers' packets. */
#include <stdlib.h>
#include <string.h>

#include <rte_common.h>
#include <rte_ring.h>

#include "mbufpool.h"
#include "rounds.h"

#define TRIES 1000000
#define REF_LIMIT 65535
#define DESKS 64

/* ---- pools of values ---- */

struct pool_user {
	struct mbufpool_pool pool;
	uint32_t *marks; /* of a check: for each value whether it is out */
} __rte_cache_aligned;

/* Its values are the numbers below its population. */
struct value_pool {
	struct pool_user user[MOST_THREADS];
	unsigned int threads;
	uint32_t population;
};

static __rte_always_inline bool
get(void *user, union refs *refs, unsigned int n)
{
	struct pool_user *u = user;

	return n == 1 ? mbufpool_pool_get_one(&u->pool, refs->value) == 0
		      : mbufpool_pool_get(&u->pool, refs->value, n) == 0;
}

static __rte_always_inline bool
put(void *user, const union refs *refs, unsigned int n)
{
	struct pool_user *u = user;

	return n == 1 ? mbufpool_pool_put_one(&u->pool, refs->value[0]) == 0
		      : mbufpool_pool_put(&u->pool, refs->value, n) == 0;
}

static uint32_t *
mark_value(void *user, const union refs *refs, unsigned int i, unsigned int segment)
{
	const struct pool_user *u = user;

	return segment == 0 ? &u->marks[refs->value[i]] : NULL;
}

static int64_t
missing_from_values(struct pool *pool)
{
	struct value_pool *p = pool->at;
	uint64_t in_pool = 0, by_one;
	unsigned int i;

	for (i = 0; i < p->threads; i++)
		if (mbufpool_pool_count(&p->user[i].pool, &by_one) == 0)
			in_pool += by_one;
	return (int64_t)(p->population - in_pool);
}

static void
end_values(struct pool *pool)
{
	struct value_pool *p = pool->at;
	unsigned int i;

	for (i = 0; i < MOST_THREADS; i++)
		mbufpool_pool_end(&p->user[i].pool);
	free(p->user[0].marks);
	free(p);
}

static const struct calls values = {
	.ref_size = sizeof(uint64_t),
	.get = get,
	.put = put,
	.mark = mark_value,
	.missing = missing_from_values,
	.close = end_values,
};
ELEMENT_PLAYS(values)
PASS_PLAYS(values)

/* Puts all values, and leaves them where each thread can get them. */
static bool
fill_values(struct value_pool *p)
{
	struct mbufpool_pool *first = &p->user[0].pool;
	uint64_t value;

	for (value = 0; value < p->population; value++)
		if (mbufpool_pool_put_one(first, value) != 0)
			return false;
	return mbufpool_pool_flush(first) == 0;
}

static bool
make_values(struct value_pool *p, const struct cell *cell)
{
	unsigned int i;

	p->population = cell->population;
	p->threads = cell->threads;
	p->user[0].marks = calloc(cell->population, sizeof(p->user[0].marks[0]));
	if (p->user[0].marks == NULL ||
		mbufpool_pool_open(cell->population, cell->threads, TRIES, &p->user[0].pool) != 0)
		return false;
	for (i = 1; i < cell->threads; i++) {
		if (mbufpool_pool_split(&p->user[0].pool, &p->user[i].pool) != 0)
			return false;
		p->user[i].marks = p->user[0].marks;
	}
	return fill_values(p);
}

static bool
open_values(const struct subject *subject, const struct cell *cell, struct pool *pool)
{
	struct value_pool *p = aligned_alloc(RTE_CACHE_LINE_SIZE, sizeof(*p));
	unsigned int i;

	(void)subject;
	if (p == NULL)
		return false;
	memset(p, 0, sizeof(*p));
	pool->at = p;
	if (!make_values(p, cell)) {
		end_values(pool);
		return false;
	}
	for (i = 0; i < cell->threads; i++)
		pool->user[i] = &p->user[i];
	pool->calls = &values;
	if (workloads[cell->workload].form == PASSED)
		values_pass(cell->workload, pool);
	else
		pool->play = values_plays[cell->workload];
	return true;
}

const struct subject pool_subject = {
	.name = "pool",
	.has_no_cache = true,
	.open = { [BARE] = open_values, [ELEMENTS] = open_values, [PASSED] = open_values },
};

/* ---- workers ---- */

/* A packet of one segment that is under way as a parcel. */
struct under_way {
	struct mbufpool_parcel parcel;
	struct mbufpool_parcel_segment segment;
};

struct worker_user {
	struct mbufpool_worker worker;
	uint32_t *marks;
	unsigned int segments; /* of the packet that is cloned or handed over */
	uint32_t slot;         /* of that packet */
	unsigned int desk;     /* over which the next packet is sent or received */
	struct under_way *parcels; /* one for each element */
	struct under_way *parcel;  /* of the packet that is handed over, and its places */
	struct under_way own;      /* a parcel that is packed as it is sent */
	struct rte_ring *place[2];
} __rte_cache_aligned;

struct worker_pool {
	struct worker_user user[MOST_THREADS];
	unsigned int threads;
	uint32_t population;
};

static __rte_always_inline bool
alloc(void *user, union refs *refs, unsigned int i)
{
	struct worker_user *u = user;

	return mbufpool_worker_alloc(&u->worker, &refs->packet[i]) == 0;
}

static __rte_always_inline bool
alloc_bulk(void *user, union refs *refs, unsigned int n)
{
	struct worker_user *u = user;

	return mbufpool_worker_alloc_bulk(&u->worker, refs->packet, n) == 0;
}

static __rte_always_inline void
free_packet(void *user, const union refs *refs, unsigned int i)
{
	struct worker_user *u = user;

	mbufpool_worker_free(&u->worker, refs->packet[i].slot);
}

static __rte_always_inline bool
clone_packet(void *user, union refs *refs)
{
	struct worker_user *u = user;

	return mbufpool_worker_clone(&u->worker, u->slot, &refs->packet[0]) == 0;
}

/* Makes the packet that is cloned or handed over, with as many segments as it is to have. */
static bool
make_first(void *user)
{
	struct worker_user *u = user;
	struct mbufpool_packet packet;
	unsigned int i;

	for (i = 0; i < u->segments; i++) {
		if (mbufpool_worker_alloc(&u->worker, &packet) != 0)
			return false;
		if (i == 0) {
			u->slot = packet.slot;
			u->parcel = u->parcels != NULL ? &u->parcels[packet.element] : NULL;
		} else if (mbufpool_worker_chain(&u->worker, u->slot, packet.slot) != 0)
			return false;
	}
	return true;
}

static void
rest(void *user)
{
	struct worker_user *u = user;

	mbufpool_worker_free(&u->worker, u->slot);
	mbufpool_worker_flush(&u->worker);
}

static uint32_t *
mark_packet(void *user, const union refs *refs, unsigned int i, unsigned int segment)
{
	struct worker_user *u = user;
	const uint32_t slot = refs != NULL ? refs->packet[i].slot : u->slot;
	struct mbufpool_segment of;

	return mbufpool_worker_segment(&u->worker, slot, segment, &of) == 0 ? &u->marks[of.element]
									    : NULL;
}

static unsigned int
holds(void *user)
{
	struct worker_user *u = user;
	uint32_t references = 0;

	mbufpool_worker_refcnt(&u->worker, u->slot, &references);
	return references;
}

/* The packet's length is the serial number. */
static void
write_serial(void *user, uint32_t serial)
{
	struct worker_user *u = user;
	uint32_t length = 0;

	mbufpool_worker_pkt_len(&u->worker, u->slot, &length);
	mbufpool_worker_trim(&u->worker, u->slot, length, &length);
	mbufpool_worker_append(&u->worker, u->slot, serial % BUFFER, &length);
}

static uint32_t
read_serial(void *user)
{
	struct worker_user *u = user;
	uint32_t length = 0;

	mbufpool_worker_pkt_len(&u->worker, u->slot, &length);
	return length;
}

/* Closes the pool, whose statement says where each element is. */
static int64_t
missing_from_workers(struct pool *pool)
{
	struct worker_pool *p = pool->at;
	struct mbufpool_worker workers[MOST_THREADS] = { MBUFPOOL_NONE };
	struct mbufpool_statement statement = MBUFPOOL_NONE;
	struct mbufpool_counts counts = { 0, 0, 0 };
	unsigned int i;

	for (i = 0; i < p->threads; i++) {
		workers[i] = p->user[i].worker;
		p->user[i].worker.at = NULL;
	}
	if (mbufpool_worker_close(workers, p->threads, &statement) == 0)
		mbufpool_statement_counts(&statement, &counts);
	mbufpool_statement_end(&statement);
	return (int64_t)p->population - (int64_t)counts.available;
}

static void
end_workers(struct pool *pool)
{
	struct worker_pool *p = pool->at;
	unsigned int i;

	for (i = 0; i < MOST_THREADS; i++)
		mbufpool_worker_end(&p->user[i].worker);
	rte_ring_free(p->user[0].place[0]);
	rte_ring_free(p->user[0].place[1]);
	free(p->user[0].parcels);
	free(p->user[0].marks);
	free(p);
}

static const struct calls packets = {
	.alloc = alloc,
	.alloc_bulk = alloc_bulk,
	.free = free_packet,
	.clone = clone_packet,
	.ready = make_first,
	.rest = rest,
	.mark = mark_packet,
	.holds = holds,
	.missing = missing_from_workers,
	.close = end_workers,
};
PACKET_PLAYS(packets)

/* ---- desks ---- */

static __rte_always_inline bool
offer(void *user, unsigned int desk)
{
	struct worker_user *u = user;

	return mbufpool_worker_offer(&u->worker, u->slot, desk) == 0;
}

static __rte_always_inline bool
take(void *user, unsigned int desk)
{
	struct worker_user *u = user;

	return mbufpool_worker_take(&u->worker, desk, &u->slot) == 0;
}

/* Over one desk after the other, as over a ring. */
static __rte_always_inline void
send_over_desks(void *user, union refs *refs, unsigned int n)
{
	struct worker_user *u = user;
	unsigned int i;

	for (i = 0; i < n; i++) {
		while (mbufpool_worker_offer(&u->worker, refs->packet[i].slot, u->desk) != 0)
			rte_pause();
		u->desk = (u->desk + 1) % DESKS;
	}
}

/* Where the first packet of a list has come, the others do. */
static __rte_always_inline bool
receive_over_desks(void *user, union refs *refs, unsigned int n)
{
	struct worker_user *u = user;
	unsigned int i;

	for (i = 0; i < n; i++) {
		while (mbufpool_worker_take(&u->worker, u->desk, &refs->packet[i].slot) != 0) {
			if (i == 0)
				return false;
			rte_pause();
		}
		u->desk = (u->desk + 1) % DESKS;
	}
	return true;
}

static const struct calls desks = {
	.ref_size = sizeof(void *), /* (of a ring that isn't used) */
	.alloc = alloc,
	.alloc_bulk = alloc_bulk,
	.free = free_packet,
	.send = send_over_desks,
	.receive = receive_over_desks,
	.offer = offer,
	.take = take,
	.ready = make_first,
	.rest = rest,
	.mark = mark_packet,
	.write = write_serial,
	.read = read_serial,
	.missing = missing_from_workers,
	.close = end_workers,
};
SEND_PLAYS(desks)
HAND_PLAYS(desks)

/* ---- parcels ---- */

/* A packet is sent in the parcel of its element, whose address takes its place in the list. */
static __rte_always_inline void
send_parcels(void *user, union refs *refs, unsigned int n)
{
	struct worker_user *u = user;
	struct under_way *to;
	unsigned int i;

	for (i = 0; i < n; i++) {
		to = &u->parcels[refs->packet[i].element];
		mbufpool_worker_send(&u->worker, refs->packet[i].slot, &to->parcel, 1);
		refs->object[i] = to;
	}
	send_pointers(refs, n);
}

static __rte_always_inline bool
receive_parcels(void *user, union refs *refs, unsigned int n)
{
	struct worker_user *u = user;
	struct under_way *from;
	unsigned int i;

	if (!receive_pointers(refs, n))
		return false;
	for (i = 0; i < n; i++) {
		from = refs->object[i];
		mbufpool_worker_receive(&u->worker, &from->parcel, &refs->packet[i].slot);
	}
	return true;
}

static __rte_always_inline bool
offer_parcel(void *user, unsigned int place)
{
	struct worker_user *u = user;

	return mbufpool_worker_send(&u->worker, u->slot, &u->parcel->parcel, 1) == 0 &&
		rte_ring_enqueue(u->place[place], u->parcel) == 0;
}

static __rte_always_inline bool
take_parcel(void *user, unsigned int place)
{
	struct worker_user *u = user;

	return rte_ring_dequeue(u->place[place], (void **)&u->parcel) == 0 &&
		mbufpool_worker_receive(&u->worker, &u->parcel->parcel, &u->slot) == 0;
}

static const struct calls parcels = {
	.ref_size = sizeof(void *),
	.alloc = alloc,
	.alloc_bulk = alloc_bulk,
	.free = free_packet,
	.send = send_parcels,
	.receive = receive_parcels,
	.offer = offer_parcel,
	.take = take_parcel,
	.ready = make_first,
	.rest = rest,
	.mark = mark_packet,
	.write = write_serial,
	.read = read_serial,
	.missing = missing_from_workers,
	.close = end_workers,
};
SEND_PLAYS(parcels)
HAND_PLAYS(parcels)

/* A packet of one direct segment goes over the ring as a pointer that is its parcel. */
static __rte_always_inline void *
send_packed(struct worker_user *u, uint32_t slot)
{
	if (mbufpool_worker_send(&u->worker, slot, &u->own.parcel, 1) != 0)
		return NULL;
	return mbufpool_parcel_pack(&u->own.parcel, DATA_ROOM);
}

static __rte_always_inline bool
receive_packed(struct worker_user *u, void *packed, uint32_t *slot)
{
	struct under_way room;
	struct mbufpool_parcel *parcel = mbufpool_parcel_unpack(packed, DATA_ROOM, &room.parcel);

	return mbufpool_worker_receive(&u->worker, parcel, slot) == 0;
}

static __rte_always_inline void
send_all_packed(void *user, union refs *refs, unsigned int n)
{
	unsigned int i;

	for (i = 0; i < n; i++)
		refs->object[i] = send_packed(user, refs->packet[i].slot);
	send_pointers(refs, n);
}

static __rte_always_inline bool
receive_all_packed(void *user, union refs *refs, unsigned int n)
{
	unsigned int i;

	if (!receive_pointers(refs, n))
		return false;
	for (i = 0; i < n; i++)
		receive_packed(user, refs->object[i], &refs->packet[i].slot);
	return true;
}

static __rte_always_inline bool
offer_packed(void *user, unsigned int place)
{
	struct worker_user *u = user;
	void *packed = send_packed(u, u->slot);

	return packed != NULL && rte_ring_enqueue(u->place[place], packed) == 0;
}

static __rte_always_inline bool
take_packed(void *user, unsigned int place)
{
	struct worker_user *u = user;
	void *packed;

	return rte_ring_dequeue(u->place[place], &packed) == 0 && receive_packed(u, packed, &u->slot);
}

static const struct calls packed_parcels = {
	.ref_size = sizeof(void *),
	.alloc = alloc,
	.alloc_bulk = alloc_bulk,
	.free = free_packet,
	.send = send_all_packed,
	.receive = receive_all_packed,
	.offer = offer_packed,
	.take = take_packed,
	.ready = make_first,
	.rest = rest,
	.mark = mark_packet,
	.write = write_serial,
	.read = read_serial,
	.missing = missing_from_workers,
	.close = end_workers,
};
SEND_PLAYS(packed_parcels)
HAND_PLAYS(packed_parcels)

static bool
make_parcels(struct worker_pool *p, const struct cell *cell)
{
	struct worker_user *first = &p->user[0];
	unsigned int i;

	first->parcels = calloc(cell->population, sizeof(first->parcels[0]));
	if (first->parcels == NULL || !make_places(first->place, sizeof(void *), 0))
		return false;
	for (i = 1; i < cell->threads; i++) {
		p->user[i].parcels = first->parcels;
		memcpy(p->user[i].place, first->place, sizeof(first->place));
	}
	return true;
}

/* ---- pools of packets ---- */

static bool
make_workers(struct worker_pool *p, const struct cell *cell)
{
	const struct mbufpool_limits limits = {
		.population = cell->population,
		.cache = cell->cache,
		.workers = cell->threads,
		.desks = DESKS,
		.buf = DATA_ROOM,
		.ref_limit = REF_LIMIT,
		.tries = TRIES,
	};
	struct mbufpool_worker workers[MOST_THREADS] = { MBUFPOOL_NONE };
	unsigned int i;

	p->threads = cell->threads;
	p->population = cell->population;
	p->user[0].marks = calloc(cell->population, sizeof(p->user[0].marks[0]));
	if (p->user[0].marks == NULL || mbufpool_worker_open(&limits, workers, cell->threads) != 0)
		return false;
	for (i = 0; i < cell->threads; i++) {
		p->user[i].worker = workers[i];
		p->user[i].marks = p->user[0].marks;
	}
	return true;
}

/* How a packet is passed on by one of these ways, to and fro or on and on. */
static void
choose(const struct cell *cell, struct pool *pool, const struct calls *calls,
	void (*hand)(unsigned int, struct pool *), void (*send)(enum workload, struct pool *))
{
	pool->calls = calls;
	if (workloads[cell->workload].form == HANDED)
		hand(cell->threads, pool);
	else
		send(cell->workload, pool);
}

static bool
open_workers(const struct subject *subject, const struct cell *cell, struct pool *pool)
{
	const bool is_packed = strcmp(subject->name, "parcel_packed") == 0;
	const bool has_parcels = is_packed || strcmp(subject->name, "parcel") == 0;
	const enum form form = workloads[cell->workload].form;
	struct worker_pool *p = aligned_alloc(RTE_CACHE_LINE_SIZE, sizeof(*p));
	unsigned int i;

	if (p == NULL)
		return false;
	memset(p, 0, sizeof(*p));
	pool->at = p;
	if (!make_workers(p, cell) || (has_parcels && !make_parcels(p, cell))) {
		end_workers(pool);
		return false;
	}
	for (i = 0; i < cell->threads; i++) {
		p->user[i].segments =
			form == CLONES ? size_of(cell->workload) : form == HANDED && i == 0;
		pool->user[i] = &p->user[i];
	}
	if (is_packed)
		choose(cell, pool, &packed_parcels, packed_parcels_hand, packed_parcels_send);
	else if (has_parcels)
		choose(cell, pool, &parcels, parcels_hand, parcels_send);
	else if (form == HANDED || form == SENT)
		choose(cell, pool, &desks, desks_hand, desks_send);
	else {
		pool->calls = &packets;
		pool->play = packets_plays[cell->workload];
	}
	return true;
}

const struct subject worker_subject = {
	.name = "worker",
	.open = { [PACKETS] = open_workers, [CLONES] = open_workers, [SENT] = open_workers,
		[HANDED] = open_workers },
};

const struct subject parcel_subject = {
	.name = "parcel",
	.open = { [SENT] = open_workers, [HANDED] = open_workers },
};

const struct subject parcel_packed_subject = {
	.name = "parcel_packed",
	.open = { [SENT] = open_workers, [HANDED] = open_workers },
};
