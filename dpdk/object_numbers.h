/* object_numbers.h - the place of a mempool's object by its address, for handlers over a pool that
 * knows its elements by number.
 *
 * An object's place is how many objects would fit between the first one of its chunk of memory and
 * it, which a multiplication tells, on from the places of earlier chunks. Where objects keep off the
 * ends of pages, some places have none. */
#ifndef OBJECT_NUMBERS_H
#define OBJECT_NUMBERS_H
#include <stdint.h>

#include <rte_branch_prediction.h>
#include <rte_mempool.h>

#define MAX_CHUNKS 64
#define NO_PLACE UINT32_MAX

/* A chunk of the mempool's memory, from its first object to behind its last. */
struct chunk {
	uintptr_t first, bytes;
	uint32_t place; /* its first object's */
};

struct object_places {
	uint64_t inverse; /* 2^64 / stride, rounded up */
	uint32_t stride;  /* an object with its header and trailer */
	uint32_t all;	  /* places are below it */
	uint32_t next;	  /* the place behind the last object's */
	uint32_t nb_chunks;
	struct chunk chunks[MAX_CHUNKS];
};

__extension__ typedef unsigned __int128 object_product;

/* At most this many places are needed: one for each object, and one for each page, as what is left
 * at the end of a page is smaller than an object; the same at the beginning of a chunk. */
static inline uint64_t
object_places_needed(struct rte_mempool *mp, uint32_t stride)
{
	size_t page;

	if (rte_mempool_get_page_size(mp, &page) != 0 || page < stride)
		page = SIZE_MAX;
	return mp->size + mp->size / (page / stride) + 2 * MAX_CHUNKS;
}

/* Begins with the places of a mempool that has no objects yet. Says whether there are numbers for
 * as many. */
static inline int
object_places_begin(struct object_places *places, struct rte_mempool *mp)
{
	uint64_t all;

	places->stride = mp->header_size + mp->elt_size + mp->trailer_size;
	places->inverse = UINT64_MAX / places->stride + 1;
	all = object_places_needed(mp, places->stride);
	if (all >= NO_PLACE)
		return 0;
	places->all = all;
	return 1;
}

/* A memory chunk is to be filled with objects. Says whether there is room for one more chunk. */
static inline int
object_chunk_begin(struct object_places *places)
{
	if (places->nb_chunks == MAX_CHUNKS)
		return 0;
	places->nb_chunks++;
	return 1;
}

/* It was filled. (one in which no object was placed isn't kept) */
static inline void
object_chunk_end(struct object_places *places)
{
	if (places->chunks[places->nb_chunks - 1].bytes == 0)
		places->nb_chunks--;
}

/* How many strides fit. Two objects of a chunk, which are a stride apart at least, differ in it. */
static inline uint32_t
object_strides(uint64_t inverse, uintptr_t bytes)
{
	return ((object_product)bytes * inverse) >> 64;
}

static inline uint32_t
object_place_by_chunks(const struct object_places *places, uintptr_t object)
{
	const struct chunk *c;

	for (c = places->chunks; c < places->chunks + places->nb_chunks; c++)
		if (object - c->first < c->bytes)
			return c->place + object_strides(places->inverse, object - c->first);
	return NO_PLACE;
}

/* The place that an address lies in, whether an object begins there or not, or NO_PLACE where it is
 * in no chunk. The first chunk's places begin at 0. */
static __rte_always_inline uint32_t
object_place(const struct object_places *places, const void *object)
{
	uintptr_t at = (uintptr_t)object - places->chunks[0].first;

	if (likely(at < places->chunks[0].bytes))
		return object_strides(places->inverse, at);
	return object_place_by_chunks(places, (uintptr_t)object);
}

/* Adds an object behind the others of the last chunk, and tells its place, or NO_PLACE where it
 * can't stand there. */
static inline uint32_t
object_place_add(struct object_places *places, const void *object)
{
	struct chunk *c;
	uint32_t place;

	if (places->nb_chunks == 0)
		return NO_PLACE;
	c = &places->chunks[places->nb_chunks - 1];
	if (c->bytes == 0) {
		c->first = (uintptr_t)object;
		c->place = places->next;
	}
	place = c->place + object_strides(places->inverse, (uintptr_t)object - c->first);
	if (place < places->next || place >= places->all)
		return NO_PLACE;
	c->bytes = (uintptr_t)object - c->first + places->stride;
	places->next = place + 1;
	return place;
}
#endif
