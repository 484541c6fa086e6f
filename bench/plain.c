/* plain.c - the algorithm of the library's words in plain C: the same atomic operations on the
 * same words (docs/MODEL.md, "The words of a running pool"), sequentially consistent as there, the
 * same caches, packets and desks; without contracts or proofs. A lost try is made again at once,
 * without a pause, and as often as it is lost.
 *
 * The words, each of 64 bits: 8 is the head, a count of its changes above 24 bits of the top
 * element's number and 1; 16 is the length; from 24 on stand a link for each element, behind
 * them a count of the holds of each, and then a word for each of the two desks. */
#include <stdatomic.h>
#include <stdlib.h>
#include <string.h>

#include <rte_common.h>

#include "rounds.h"

#define HEAD 8
#define LENGTH 16
#define LINKS 24
#define TOP_BITS 24
#define TOP ((UINT64_C(1) << TOP_BITS) - 1)
#define SPENT ((UINT64_C(1) << 40) - 1)
#define DESKS 2
#define SLOTS 256
#define SEGMENTS 32
#define LONGEST_CACHED 512	/* a longer list is put past the cache */
#define HEADROOM 128
#define REF_LIMIT 65535

enum { DESK_EMPTY, DESK_HELD, DESK_FULL, DESK_SEIZED };

struct segment {
	uint32_t element, is_indirect, base;
	uint16_t off, len, buf;
};

struct packet { /* 648 bytes, as the library's */
	uint64_t nb_segs;
	struct segment segs[SEGMENTS];
};

/* What all users of a pool share. */
struct words {
	_Atomic uint64_t *word, *count;
	uint32_t population, cache, threshold;
	struct packet *desk;
	uint32_t *marks; /* of a check: for each element whether it is out */
};

struct plain_user {
	struct words words;
	uint32_t length;  /* of the cache */
	uint32_t *cached; /* has room for the population */
	struct packet *packets;
	uint64_t empty_slots[SLOTS / 64];
	unsigned int segments; /* of the packet in slot 0, which is cloned or handed over */
} __rte_cache_aligned;

struct plain_pool {
	struct words words;
	struct packet desk[DESKS];
	struct plain_user user[MOST_THREADS];
};

/* ---- the stack ---- */

/* Reserves n elements by the length, and takes them off the head. */
static __rte_always_inline bool
stack_get(const struct words *s, uint32_t *list, unsigned int n)
{
	_Atomic uint64_t *const word = s->word;
	uint64_t length = atomic_load(&word[LENGTH]), head, top;
	unsigned int i;

	do {
		if (unlikely(length < n))
			return false;
	} while (unlikely(!atomic_compare_exchange_strong(&word[LENGTH], &length, length - n)));
	for (;;) {
		head = atomic_load(&word[HEAD]);
		if (unlikely(head >> TOP_BITS == SPENT)) {
			atomic_fetch_add(&word[LENGTH], n);
			return false;
		}
		top = head & TOP;
		for (i = 0; i < n && likely(top != 0); i++) {
			list[i] = top - 1;
			top = atomic_load(&word[LINKS - 1 + top]);
		}
		if (likely(i == n) && likely(atomic_compare_exchange_strong(&word[HEAD], &head,
					      ((head >> TOP_BITS) + 1) << TOP_BITS | top)))
			return true;
	}
}

/* Links the list to the top, and adds it to the head, and to the length afterwards. */
static __rte_always_inline bool
stack_put(const struct words *s, const uint32_t *list, unsigned int n)
{
	_Atomic uint64_t *const word = s->word;
	uint64_t head, top;
	uint32_t element;
	unsigned int i;

	do {
		head = atomic_load(&word[HEAD]);
		if (unlikely(head >> TOP_BITS == SPENT))
			return false;
		top = head & TOP;
		for (i = 0; i < n; i++) {
			element = list[i];
			atomic_store(&word[LINKS + element], top);
			top = element + 1;
		}
	} while (unlikely(!atomic_compare_exchange_strong(
		&word[HEAD], &head, ((head >> TOP_BITS) + 1) << TOP_BITS | top)));
	atomic_fetch_add(&word[LENGTH], n);
	return true;
}

/* ---- the cache ---- */

/* Fills the cache up, so that it has its size left when n are got from it. */
static __rte_noinline bool
refill(struct plain_user *u, unsigned int n)
{
	const uint32_t more = n + u->words.cache - u->length;

	if (n + u->words.cache > u->words.population ||
		!stack_get(&u->words, u->cached + u->length, more))
		return false;
	u->length += more;
	return true;
}

static __rte_always_inline bool
cache_get(struct plain_user *u, uint32_t *restrict list, unsigned int n)
{
	const uint32_t *restrict last;
	unsigned int i;

	if (n >= u->words.cache || (unlikely(u->length < n) && !refill(u, n)))
		return stack_get(&u->words, list, n);
	last = u->cached + u->length - 1;
	for (i = 0; i < n; i++)
		list[i] = *(last - i);
	u->length -= n;
	return true;
}

/* What overflows goes to the stack; what that refuses stays. */
static __rte_noinline void
overflow(struct plain_user *u)
{
	const uint32_t size = u->words.cache;

	if (stack_put(&u->words, u->cached + size, u->length - size))
		u->length = size;
}

static __rte_always_inline void
cache_put(struct plain_user *u, const uint32_t *list, unsigned int n)
{
	if ((n > LONGEST_CACHED || (u->words.cache == 0 && u->length == 0)) &&
		likely(stack_put(&u->words, list, n)))
		return;
	memcpy(u->cached + u->length, list, n * sizeof(list[0]));
	u->length += n;
	if (unlikely(u->length >= u->words.threshold) && u->length > u->words.cache)
		overflow(u);
}

/* ---- packets ---- */

static __rte_always_inline int
empty_slot(const struct plain_user *u)
{
	unsigned int i;

	if (likely(u->empty_slots[0] != 0))
		return __builtin_ctzll(u->empty_slots[0]);
	for (i = 1; i < RTE_DIM(u->empty_slots); i++)
		if (u->empty_slots[i] != 0)
			return i * 64 + __builtin_ctzll(u->empty_slots[i]);
	return -1;
}

static __rte_always_inline void
fill_slot(struct plain_user *u, unsigned int slot)
{
	u->empty_slots[slot / 64] &= ~(UINT64_C(1) << slot % 64);
}

static __rte_always_inline void
empty_out(struct plain_user *u, unsigned int slot)
{
	u->empty_slots[slot / 64] |= UINT64_C(1) << slot % 64;
}

static __rte_always_inline bool
is_full_slot(const struct plain_user *u, unsigned int slot)
{
	return slot < SLOTS && (u->empty_slots[slot / 64] >> slot % 64 & 1) == 0;
}

/* Makes a packet of an element that was got: of one that nobody holds the count is 1 already. */
static __rte_always_inline void
make_packet(struct plain_user *u, unsigned int slot, uint32_t element)
{
	struct packet *p = &u->packets[slot];

	(void)atomic_load(&u->words.count[element]);
	fill_slot(u, slot);
	p->nb_segs = 1;
	p->segs[0] = (struct segment){
		.element = element, .off = HEADROOM, .buf = HEADROOM + BUFFER
	};
}

static __rte_always_inline bool
raise_count(const struct words *s, uint32_t element)
{
	uint64_t count = atomic_load(&s->count[element]);

	do {
		if (count >= REF_LIMIT)
			return false;
	} while (!atomic_compare_exchange_strong(&s->count[element], &count, count + 1));
	return true;
}

/* Ends a hold, and puts the element back where it was the last. */
static __rte_always_inline void
end_hold(struct plain_user *u, uint32_t element)
{
	_Atomic uint64_t *const count = &u->words.count[element];

	if (atomic_load(count) != 1) {
		if (atomic_fetch_sub(count, 1) != 1)
			return;
		atomic_store(count, 1);
	}
	cache_put(u, &element, 1);
}

static __rte_always_inline void
free_segments(struct plain_user *u, const struct packet *p)
{
	const struct segment *const end = p->segs + p->nb_segs;
	const struct segment *segment = p->segs;

	for (; segment < end; segment++) {
		if (segment->is_indirect)
			end_hold(u, segment->base);
		end_hold(u, segment->element);
	}
}

/* Clones one segment behind those that the clone has. */
static __rte_always_inline bool
clone_segment(struct plain_user *u, struct packet *clone, const struct segment *of)
{
	const uint32_t base = of->is_indirect ? of->base : of->element;
	struct segment *to = &clone->segs[clone->nb_segs];
	uint32_t element;

	if (!cache_get(u, &element, 1))
		return false;
	(void)atomic_load(&u->words.count[element]);
	if (!raise_count(&u->words, base)) {
		end_hold(u, element);
		return false;
	}
	*to = *of;
	to->element = element;
	to->base = base;
	to->is_indirect = 1;
	clone->nb_segs++;
	return true;
}

/* ---- desks ---- */

static __rte_always_inline _Atomic uint64_t *
word_of_desk(const struct words *s, unsigned int desk)
{
	return &s->count[s->population + desk];
}

/* ---- the calls ---- */

static __rte_always_inline bool
get(void *user, union refs *refs, unsigned int n)
{
	return cache_get(user, refs->number, n);
}

static __rte_always_inline bool
put(void *user, const union refs *refs, unsigned int n)
{
	cache_put(user, refs->number, n);
	return true;
}

static __rte_always_inline bool
get_bare(void *user, union refs *refs, unsigned int n)
{
	struct plain_user *u = user;

	return stack_get(&u->words, refs->number, n);
}

static __rte_always_inline bool
put_bare(void *user, const union refs *refs, unsigned int n)
{
	struct plain_user *u = user;

	return stack_put(&u->words, refs->number, n);
}

static __rte_always_inline bool
alloc(void *user, union refs *refs, unsigned int i)
{
	struct plain_user *u = user;
	const int slot = empty_slot(u);
	uint32_t element;

	if (slot < 0 || !cache_get(u, &element, 1))
		return false;
	make_packet(u, slot, element);
	refs->number[i] = slot;
	return true;
}

static __rte_always_inline bool
alloc_bulk(void *user, union refs *refs, unsigned int n)
{
	struct plain_user *u = user;
	uint32_t elements[SLOTS];
	unsigned int i, empty = 0;

	for (i = 0; i < RTE_DIM(u->empty_slots); i++)
		empty += __builtin_popcountll(u->empty_slots[i]);
	if (empty < n || !cache_get(u, elements, n))
		return false;
	for (i = 0; i < n; i++) {
		refs->number[i] = empty_slot(u);
		make_packet(u, refs->number[i], elements[i]);
	}
	return true;
}

static __rte_always_inline void
free_packet(void *user, const union refs *refs, unsigned int i)
{
	struct plain_user *u = user;
	const uint32_t slot = refs->number[i];

	if (unlikely(!is_full_slot(u, slot)))
		return;
	free_segments(u, &u->packets[slot]);
	empty_out(u, slot);
}

static __rte_always_inline bool
clone_packet(void *user, union refs *refs)
{
	struct plain_user *u = user;
	const int slot = empty_slot(u);
	const struct packet *from = &u->packets[0];
	struct packet *clone;
	uint64_t i;

	if (slot < 0)
		return false;
	clone = &u->packets[slot];
	clone->nb_segs = 0;
	for (i = 0; i < from->nb_segs; i++)
		if (unlikely(!clone_segment(u, clone, &from->segs[i]))) {
			free_segments(u, clone);
			return false;
		}
	fill_slot(u, slot);
	refs->number[0] = slot;
	return true;
}

/* The packet that is handed over stands in slot 0. */
static __rte_always_inline bool
offer(void *user, unsigned int desk)
{
	struct plain_user *u = user;
	uint64_t was = DESK_EMPTY;

	if (!atomic_compare_exchange_strong(word_of_desk(&u->words, desk), &was, DESK_HELD))
		return false;
	u->words.desk[desk] = u->packets[0];
	atomic_store(word_of_desk(&u->words, desk), DESK_FULL);
	empty_out(u, 0);
	return true;
}

static __rte_always_inline bool
take(void *user, unsigned int desk)
{
	struct plain_user *u = user;
	const int slot = empty_slot(u);
	uint64_t was = DESK_FULL;

	if (slot != 0 ||
		!atomic_compare_exchange_strong(word_of_desk(&u->words, desk), &was, DESK_SEIZED))
		return false;
	u->packets[slot] = u->words.desk[desk];
	atomic_store(word_of_desk(&u->words, desk), DESK_EMPTY);
	fill_slot(u, slot);
	return true;
}

/* ---- before and behind the rounds ---- */

/* Makes the packet in slot 0, with as many segments as it is to have. */
static bool
make_first(void *user)
{
	struct plain_user *u = user;
	union refs refs;
	unsigned int i;

	for (i = 0; i < u->segments; i++) {
		if (!alloc(u, &refs, 0))
			return false;
		if (i == 0)
			continue;
		u->packets[0].segs[i] = u->packets[1].segs[0];
		u->packets[0].nb_segs = i + 1;
		empty_out(u, 1);
	}
	return true;
}

static void
rest(void *user)
{
	struct plain_user *u = user;
	union refs refs = { .number = { 0 } };

	free_packet(u, &refs, 0);
	if (u->length != 0 && stack_put(&u->words, u->cached, u->length))
		u->length = 0;
}

static uint32_t *
mark(void *user, const union refs *refs, unsigned int i, unsigned int segment)
{
	const struct plain_user *u = user;

	return segment == 0 ? &u->words.marks[refs->number[i]] : NULL;
}

static uint32_t *
mark_packet(void *user, const union refs *refs, unsigned int i, unsigned int segment)
{
	const struct plain_user *u = user;
	const struct packet *p = &u->packets[refs != NULL ? refs->number[i] : 0];

	return segment < p->nb_segs ? &u->words.marks[p->segs[segment].element] : NULL;
}

static unsigned int
holds(void *user)
{
	const struct plain_user *u = user;

	return atomic_load(&u->words.count[u->packets[0].segs[0].element]);
}

static void
write_serial(void *user, uint32_t serial)
{
	struct plain_user *u = user;

	u->packets[0].segs[0].len = serial % BUFFER;
}

static uint32_t
read_serial(void *user)
{
	const struct plain_user *u = user;

	return u->packets[0].segs[0].len;
}

static int64_t
missing(struct pool *pool)
{
	const struct plain_pool *p = pool->at;

	return (int64_t)p->words.population - (int64_t)atomic_load(&p->words.word[LENGTH]);
}

static void
end(struct pool *pool)
{
	struct plain_pool *p = pool->at;
	unsigned int i;

	for (i = 0; i < MOST_THREADS; i++) {
		free(p->user[i].cached);
		free(p->user[i].packets);
	}
	free((void *)p->words.word);
	free(p->words.marks);
	free(p);
}

static const struct calls bare = {
	.ref_size = sizeof(uint32_t),
	.get = get_bare,
	.put = put_bare,
	.mark = mark,
	.missing = missing,
	.close = end,
};

static const struct calls elements = {
	.ref_size = sizeof(uint32_t),
	.get = get,
	.put = put,
	.rest = rest,
	.mark = mark,
	.missing = missing,
	.close = end,
};

static const struct calls packets = {
	.alloc = alloc,
	.alloc_bulk = alloc_bulk,
	.free = free_packet,
	.clone = clone_packet,
	.ready = make_first,
	.rest = rest,
	.mark = mark_packet,
	.holds = holds,
	.missing = missing,
	.close = end,
};

static const struct calls desks = {
	.offer = offer,
	.take = take,
	.ready = make_first,
	.rest = rest,
	.write = write_serial,
	.read = read_serial,
	.missing = missing,
	.close = end,
};

ELEMENT_PLAYS(bare)
ELEMENT_PLAYS(elements)
PASS_PLAYS(elements)
PACKET_PLAYS(packets)
HAND_PLAYS(desks)

/* ---- pools ---- */

/* Fills the words: all elements are on the stack, 0 on top. */
static bool
make_words(struct words *s, const struct cell *cell)
{
	const uint32_t n = cell->population;
	const size_t all = LINKS + 2 * (size_t)n + DESKS;
	uint32_t i;

	s->word = aligned_alloc(64, RTE_ALIGN_CEIL(all * sizeof(s->word[0]), 64));
	s->marks = calloc(n, sizeof(s->marks[0]));
	if (s->word == NULL || s->marks == NULL)
		return false;
	s->count = s->word + LINKS + n;
	s->population = n;
	s->cache = cell->cache;
	s->threshold = cell->cache * 3 / 2;
	memset((void *)s->word, 0, all * sizeof(s->word[0]));
	for (i = 0; i < n; i++) {
		atomic_init(&s->word[LINKS + i], i + 1 < n ? i + 2 : 0);
		atomic_init(&s->count[i], 1);
	}
	atomic_init(&s->word[HEAD], 1);
	atomic_init(&s->word[LENGTH], n);
	return true;
}

static bool
make_user(struct plain_user *u, const struct words *s, unsigned int segments)
{
	u->words = *s;
	u->segments = segments;
	memset(u->empty_slots, 0xff, sizeof(u->empty_slots));
	u->cached = calloc(s->population, sizeof(u->cached[0]));
	u->packets = calloc(SLOTS, sizeof(u->packets[0]));
	return u->cached != NULL && u->packets != NULL;
}

/* How many segments the packet is to have that a thread begins with. */
static unsigned int
segments_of(const struct cell *cell, unsigned int thread)
{
	switch (workloads[cell->workload].form) {
	case CLONES:
		return size_of(cell->workload);
	case HANDED:
		return thread == 0;
	default:
		return 0;
	}
}

static void
choose_calls(const struct cell *cell, struct pool *pool)
{
	switch (workloads[cell->workload].form) {
	case BARE:
		pool->calls = &bare;
		pool->play = bare_plays[cell->workload];
		break;
	case ELEMENTS:
		pool->calls = &elements;
		pool->play = elements_plays[cell->workload];
		break;
	case PASSED:
		pool->calls = &elements;
		elements_pass(cell->workload, pool);
		break;
	case HANDED:
		pool->calls = &desks;
		desks_hand(cell->threads, pool);
		break;
	default:
		pool->calls = &packets;
		pool->play = packets_plays[cell->workload];
	}
}

static bool
open_plain(const struct subject *subject, const struct cell *cell, struct pool *pool)
{
	struct plain_pool *p = aligned_alloc(64, sizeof(*p));
	unsigned int i;

	(void)subject;
	if (p == NULL)
		return false;
	memset(p, 0, sizeof(*p));
	pool->at = p;
	p->words.desk = p->desk;
	if (!make_words(&p->words, cell)) {
		end(pool);
		return false;
	}
	for (i = 0; i < cell->threads; i++) {
		if (!make_user(&p->user[i], &p->words, segments_of(cell, i))) {
			end(pool);
			return false;
		}
		pool->user[i] = &p->user[i];
	}
	choose_calls(cell, pool);
	return true;
}

const struct subject plain_subject = {
	.name = "plain",
	.open = { [BARE] = open_plain, [ELEMENTS] = open_plain, [PASSED] = open_plain,
		[PACKETS] = open_plain, [CLONES] = open_plain, [HANDED] = open_plain },
};
