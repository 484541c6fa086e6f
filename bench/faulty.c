/* faulty.c - two subjects on which the checks have to fail: a list of numbers under a lock, of
 * which one is given twice now and then ("twice"), or isn't put back ("loses"). They are here
 * to try the checks. */
#include <stdlib.h>
#include <string.h>

#include <rte_spinlock.h>

#include "rounds.h"

#define NOW_AND_THEN 1000

struct faulty {
	rte_spinlock_t lock;
	bool is_losing;
	uint32_t population, length, calls;
	uint32_t *marks, *number;
};

static bool
get(void *user, union refs *refs, unsigned int n)
{
	struct faulty *f = user;
	bool is_got;

	rte_spinlock_lock(&f->lock);
	is_got = f->length >= n;
	if (is_got) {
		f->length -= n;
		memcpy(refs->number, f->number + f->length, n * sizeof(f->number[0]));
		if (n > 1 && !f->is_losing && ++f->calls % NOW_AND_THEN == 0)
			refs->number[0] = refs->number[1];
	}
	rte_spinlock_unlock(&f->lock);
	return is_got;
}

static bool
put(void *user, const union refs *refs, unsigned int n)
{
	struct faulty *f = user;

	rte_spinlock_lock(&f->lock);
	if (f->is_losing && f->length + n < f->population + 1 && ++f->calls % NOW_AND_THEN == 0)
		n--;
	memcpy(f->number + f->length, refs->number, n * sizeof(f->number[0]));
	f->length += n;
	rte_spinlock_unlock(&f->lock);
	return true;
}

static uint32_t *
mark(void *user, const union refs *refs, unsigned int i, unsigned int segment)
{
	const struct faulty *f = user;

	return segment == 0 ? &f->marks[refs->number[i]] : NULL;
}

static int64_t
missing(struct pool *pool)
{
	const struct faulty *f = pool->at;

	return (int64_t)f->population - f->length;
}

static void
end(struct pool *pool)
{
	struct faulty *f = pool->at;

	free(f->marks);
	free(f->number);
	free(f);
}

static const struct calls faulty = {
	.ref_size = sizeof(uint32_t),
	.get = get,
	.put = put,
	.mark = mark,
	.missing = missing,
	.close = end,
};
ELEMENT_PLAYS(faulty)

static bool
open_faulty(const struct subject *subject, const struct cell *cell, struct pool *pool)
{
	struct faulty *f = calloc(1, sizeof(*f));
	uint32_t i;

	if (f == NULL)
		return false;
	pool->at = f;
	f->marks = calloc(cell->population, sizeof(f->marks[0]));
	f->number = calloc(cell->population, sizeof(f->number[0]));
	if (f->marks == NULL || f->number == NULL) {
		end(pool);
		return false;
	}
	f->is_losing = strcmp(subject->name, "loses") == 0;
	f->population = f->length = cell->population;
	for (i = 0; i < cell->population; i++)
		f->number[i] = i;
	for (i = 0; i < cell->threads; i++)
		pool->user[i] = f;
	pool->calls = &faulty;
	pool->play = faulty_plays[cell->workload];
	return true;
}

const struct subject twice_subject = {
	.name = "twice",
	.has_no_cache = true,
	.open = { [BARE] = open_faulty },
};

const struct subject loses_subject = {
	.name = "loses",
	.has_no_cache = true,
	.open = { [BARE] = open_faulty },
};
