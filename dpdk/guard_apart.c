/* guard_apart.c - what the usual gets and puts of the handler "mbufpool_guard" leave: threads without an
 * lcore, long lists, what is refused or contended, and what a worker finds late. */
#include <errno.h>

#include <rte_pause.h>

#include "guard_steps.h"

/* ---- who calls ---- */

static caller
look_up_caller(const void *at)
{
	return caller_of(rte_lcore_id(), guard_way_to(at));
}

/* (what returns there may have come another way, where ways are noted) */
static const void *
last_at(const void *at)
{
	return guard_calls == 0 ? at : NULL;
}

void
guard_look_up_getter(struct last_call *last, const void *at)
{
	last->noted = (struct past){ .put = 0, .got = look_up_caller(at) };
	last->at = last_at(at);
}

void
guard_look_up_putter(struct last_call *last, const void *at)
{
	last->noted = (struct past){ .put = look_up_caller(at), .got = 0 };
	last->at = last_at(at);
}

/* ---- whose worker, and what it found late ---- */

struct guard_user *
guard_lock(struct guard_pool *p)
{
	struct guard_user *own = own_user(p);

	if (own != NULL)
		return own;
	rte_spinlock_lock(&p->lock);
	return &p->shared;
}

void
guard_unlock(struct guard_pool *p, struct guard_user *u)
{
	if (u == &p->shared)
		rte_spinlock_unlock(&p->lock);
}

void
guard_tell_late(struct guard_pool *p, struct guard_user *u)
{
	uint32_t element;
	uint64_t in;

	while (mbufpool_guard_stale(&u->guard, &element) == 0) {
		__atomic_fetch_add(&p->late, 1, __ATOMIC_RELAXED);
		guard_log_late(p, element);
	}
	if (mbufpool_guard_count(&u->guard, &in) == 0)
		write_now(&u->puts, u->gets + in);
}

void
guard_tell_shared(struct guard_pool *p)
{
	if (rte_spinlock_trylock(&p->lock)) {
		guard_tell_late(p, &p->shared);
		rte_spinlock_unlock(&p->lock);
	}
}

/* ---- objects ---- */

uint32_t
guard_element(const struct guard_pool *p, const void *object)
{
	uint32_t place = object_place(&p->places, object);

	return place != NO_PLACE && p->objects[place] == object ? place : NO_PLACE;
}

/* ---- puts ---- */

/* What was noted wasn't put, and is out still. */
static void
note_no_put(struct guard_pool *p, uint32_t element, caller by)
{
	__atomic_compare_exchange_n(&p->pasts[element].put, &by, 0, 0, __ATOMIC_RELAXED, __ATOMIC_RELAXED);
}

static __rte_cold __rte_noinline void
refuse_put(struct guard_pool *p, uint32_t element, caller put, caller by)
{
	__atomic_fetch_add(&p->refused, 1, __ATOMIC_RELAXED);
	guard_log_not_out(p, element, put, by);
}

/* A put that was noted, and that the library refused. Where the element isn't out the note stays: if it isn't
 * this put's, it is that of another, who put it at the same time. */
static __rte_cold __rte_noinline void
refuse_noted(struct guard_pool *p, uint32_t element, uint32_t cause, caller by)
{
	caller put;

	if (cause != MBUFPOOL_NOT_OUT) {
		note_no_put(p, element, by);
		guard_log_fault(p, "put", cause);
		return;
	}
	put = read_now(&p->pasts[element].put);
	refuse_put(p, element, put == by ? 0 : put, by);
}

/* Puts what is noted as put. Says whether all of it is put: what is refused is told, one by one. */
static __rte_cold __rte_noinline int
put_noted(struct guard_pool *p, const uint32_t *list, unsigned int n, caller by)
{
	uint64_t taken = 0;
	uint32_t cause;
	int err = 0;

	while (n > 0) {
		struct guard_user *u = guard_lock(p);

		cause = mbufpool_guard_put(&u->guard, list, n, &taken);
		add(&u->puts, taken);
		guard_unlock(p, u);
		list += taken;
		n -= taken;
		if (cause == MBUFPOOL_CONTENDED) {
			rte_pause();
		} else if (cause != 0) {
			refuse_noted(p, *list++, cause, by);
			n--;
			err = -ENOBUFS;
		}
	}
	return err;
}

/* Adds a new object while the mempool is filled. The pool began full, and its shared worker got all of it. */
static uint32_t
add_object(struct guard_pool *p, void *object, caller by)
{
	uint32_t element;

	if ((uintptr_t)object < p->filling || (uintptr_t)object >= p->filling_end || p->known == p->size)
		return NO_PLACE;
	element = object_place_add(&p->places, object);
	if (element == NO_PLACE)
		return NO_PLACE;
	p->numbers[element] = p->known++;
	p->objects[element] = object;
	p->pasts[element].put = by;
	return element;
}

static __rte_cold __rte_noinline int
put_unknown(struct guard_pool *p, void *object, caller by)
{
	const uint32_t element = add_object(p, object, by);

	if (element != NO_PLACE)
		return put_noted(p, &element, 1, by);
	__atomic_fetch_add(&p->refused, 1, __ATOMIC_RELAXED);
	guard_log_stranger(p, object, by);
	return -ENOBUFS;
}

/* Puts one object, from the first on. */
static __rte_cold __rte_noinline int
put_apart(struct guard_pool *p, void *object, caller by)
{
	uint32_t element = guard_element(p, object);

	if (element == NO_PLACE)
		return put_unknown(p, object, by);
	if (note_put(&p->pasts[element], by))
		return put_noted(p, &element, 1, by);
	refuse_put(p, element, read_now(&p->pasts[element].put), by);
	return -ENOBUFS;
}

/* Puts a list of objects one by one, for a thread without an lcore or by one. */
static __rte_cold __rte_noinline int
put_list_apart(struct guard_pool *p, void *const *objects, unsigned int n, caller by)
{
	unsigned int i;
	int err = 0;

	for (i = 0; i < n; i++)
		if (put_apart(p, objects[i], by) != 0)
			err = -ENOBUFS;
	return err;
}

/* ---- gets ---- */

static __rte_cold __rte_noinline int
refuse_get(struct guard_pool *p, uint32_t cause)
{
	if (cause != MBUFPOOL_NO_ENTRIES)
		guard_log_fault(p, "get", cause);
	return -ENOBUFS;
}

/* Gets a list by the thread's own worker, or by the shared one. */
static uint32_t
get_by_either(struct guard_pool *p, uint32_t *list, unsigned int n)
{
	uint32_t cause;

	do {
		struct guard_user *u = guard_lock(p);

		cause = mbufpool_guard_get(&u->guard, list, n);
		if (cause == 0)
			add(&u->gets, n);
		guard_tell_late(p, u);
		guard_unlock(p, u);
		if (cause == MBUFPOOL_CONTENDED)
			rte_pause();
	} while (cause == MBUFPOOL_CONTENDED);
	return cause;
}

/* Gives back what nobody was given. Who put it before stays who put it. */
static void
give_back(struct guard_pool *p, void *const *objects, unsigned int n)
{
	unsigned int i;

	for (i = 0; i < n; i++) {
		uint32_t element = guard_element(p, objects[i]);

		put_noted(p, &element, 1, read_now(&p->pasts[element].put));
	}
}

int
guard_get(struct guard_pool *p, void **objects, unsigned int n, caller by)
{
	uint32_t list[BURST], cause;
	unsigned int i, k, done;

	for (done = 0; done < n; done += k) {
		k = RTE_MIN(n - done, (unsigned int)BURST);
		cause = get_by_either(p, list, k);
		if (cause != 0) {
			give_back(p, objects, done);
			return refuse_get(p, cause);
		}
		for (i = 0; i < k; i++)
			objects[done + i] = p->objects[list[i]];
	}
	for (i = 0; i < n; i++)
		note_got(&p->pasts[guard_element(p, objects[i])], (struct past){ .put = 0, .got = by });
	return 0;
}

/* ---- of the usual way ---- */

int
guard_enqueue(struct guard_pool *p, void *const *objects, unsigned int n, const void *at)
{
	return p == NULL ? -ENOBUFS : put_list_apart(p, objects, n, look_up_caller(at));
}

int
guard_dequeue(struct guard_pool *p, void **objects, unsigned int n, const void *at)
{
	return p == NULL ? -ENOBUFS : guard_get(p, objects, n, look_up_caller(at));
}

int
guard_put_counted(struct guard_pool *p, const uint32_t *list, unsigned int n, uint32_t cause)
{
	struct guard_user *own = own_user(p);
	int err = 0;

	add(&own->puts, -(uint64_t)n);
	if (cause != MBUFPOOL_CONTENDED) {
		refuse_noted(p, *list++, cause, own->put.noted.put);
		n--;
		err = -ENOBUFS;
	}
	return put_noted(p, list, n, own->put.noted.put) != 0 ? -ENOBUFS : err;
}

int
guard_put_counted_one(struct guard_pool *p, void *object, uint32_t cause)
{
	const uint32_t element = guard_element(p, object);

	return guard_put_counted(p, &element, 1, cause);
}

int
guard_put_own(struct guard_pool *p, void *object)
{
	return put_apart(p, object, own_user(p)->put.noted.put);
}

int
guard_get_counted(struct guard_pool *p, void **objects, unsigned int n, uint32_t cause)
{
	struct guard_user *own = own_user(p);

	add(&own->gets, -(uint64_t)n);
	if (cause == MBUFPOOL_CONTENDED)
		return guard_get(p, objects, n, own->get.noted.got);
	guard_tell_late(p, own);
	return refuse_get(p, cause);
}
