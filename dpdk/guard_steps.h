/* guard_steps.h - the steps of a get and of a put on the handler "mbufpool_guard": who calls, which element an
 * object is, and what is noted of it. */
#ifndef GUARD_STEPS_H
#define GUARD_STEPS_H
#include <rte_branch_prediction.h>

#include "guard_pool.h"

#define BURST 512 /* elements that the library is asked for at a time */

#define read_now(at) __atomic_load_n(at, __ATOMIC_RELAXED)
#define write_now(at, what) __atomic_store_n(at, what, __ATOMIC_RELAXED)

/* ---- users ---- */

/* Adds to what a user has put, or got, modulo 2^64. */
static __rte_always_inline void
add(uint64_t *count, uint64_t n)
{
	write_now(count, *count + n);
}

/* The user of an lcore that has a worker; NULL for another thread. */
static __rte_always_inline struct guard_user *
own_user(const struct guard_pool *p)
{
	const unsigned int lcore = rte_lcore_id();

	return likely(lcore < RTE_MAX_LCORE) ? p->own[lcore] : NULL;
}

/* ---- who and where ---- */

/* (two never note gets of one element at the same time: between them is a put) */
static __rte_always_inline void
note_got(struct past *past, struct past now)
{
	write_now(&past->both, now.both);
	write_now(&past->gets, read_now(&past->gets) + 1);
}

/* Notes a put before the library is asked: a get that follows it then is noted behind it. What was put last
 * is in the pool, and stays noted as it is. */
static __rte_always_inline int
note_put(struct past *past, caller by)
{
	if (unlikely(read_now(&past->put) != 0))
		return 0;
	write_now(&past->put, by);
	return 1;
}

/* ---- objects ---- */

/* What finds the element of an object in the first chunk, in which most often all are. */
struct finder {
	void *const *objects;
	uintptr_t first, bytes;
	uint64_t inverse;
};

static __rte_always_inline struct finder
finder_of(const struct guard_pool *p)
{
	return (struct finder){ p->objects, p->places.chunks[0].first, p->places.chunks[0].bytes,
		p->places.inverse };
}

static __rte_always_inline int
is_in_first(const struct finder *f, const void *object)
{
	return (uintptr_t)object - f->first < f->bytes;
}

/* Finds the element of an object, and says whether one begins at this address. (one behind the last object of a
 * chunk can lie in the place behind it) */
static __rte_always_inline int
find_in_first(const struct finder *f, const void *object, uint32_t *element)
{
	*element = object_strides(f->inverse, (uintptr_t)object - f->first);
	return likely(f->objects[*element] == object);
}

static __rte_always_inline int
find_element(const struct guard_pool *p, const struct finder *f, const void *object, uint32_t *element)
{
	if (likely(is_in_first(f, object)))
		return find_in_first(f, object, element);
	*element = guard_element(p, object);
	return *element != NO_PLACE;
}
#endif
