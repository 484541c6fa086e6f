/* none.c - no pool: numbers in turn, for lists that one lcore passes to another. What such a list
 * costs is the ring between the lcores, and the loops around it. */
#include <stdlib.h>
#include <string.h>

#include "rounds.h"

struct none {
	uint32_t population, next;
	uint64_t got, known_back; /* of whom gets: how many, and how many it knows to be back */
	uint32_t *marks;	  /* of a check: for each number whether it is out */
	uint64_t back __rte_cache_aligned; /* of whom puts */
} __rte_cache_aligned;

/* Whether n are back of those that were got. The other lcore is asked only where it isn't known. */
static __rte_always_inline bool
are_back(struct none *p, unsigned int n)
{
	if (likely(p->got - p->known_back + n <= p->population))
		return true;
	p->known_back = __atomic_load_n(&p->back, __ATOMIC_ACQUIRE);
	return p->got - p->known_back + n <= p->population;
}

static __rte_always_inline bool
get(void *user, union refs *refs, unsigned int n)
{
	struct none *p = user;
	unsigned int i;

	if (unlikely(!are_back(p, n)))
		return false;
	for (i = 0; i < n; i++) {
		refs->value[i] = p->next;
		p->next = p->next + 1 == p->population ? 0 : p->next + 1;
	}
	p->got += n;
	return true;
}

static __rte_always_inline bool
put(void *user, const union refs *refs, unsigned int n)
{
	struct none *p = user;

	is_read(refs);
	__atomic_store_n(&p->back, p->back + n, __ATOMIC_RELEASE);
	return true;
}

static uint32_t *
mark(void *user, const union refs *refs, unsigned int i, unsigned int segment)
{
	const struct none *p = user;

	return segment == 0 ? &p->marks[refs->value[i]] : NULL;
}

static int64_t
missing(struct pool *pool)
{
	const struct none *p = pool->at;

	return (int64_t)(p->got - p->back);
}

static void
end(struct pool *pool)
{
	struct none *p = pool->at;

	free(p->marks);
	free(p);
}

static const struct calls none = {
	.ref_size = sizeof(uint64_t),
	.get = get,
	.put = put,
	.mark = mark,
	.missing = missing,
	.close = end,
};
PASS_PLAYS(none)

static bool
open_none(const struct subject *subject, const struct cell *cell, struct pool *pool)
{
	struct none *p = aligned_alloc(RTE_CACHE_LINE_SIZE, sizeof(*p));
	unsigned int i;

	(void)subject;
	if (p == NULL)
		return false;
	memset(p, 0, sizeof(*p));
	pool->at = p;
	p->population = cell->population;
	p->marks = calloc(cell->population, sizeof(p->marks[0]));
	if (p->marks == NULL) {
		end(pool);
		return false;
	}
	for (i = 0; i < cell->threads; i++)
		pool->user[i] = p;
	pool->calls = &none;
	none_pass(cell->workload, pool);
	return true;
}

const struct subject none_subject = {
	.name = "none",
	.has_no_cache = true,
	.open = { [PASSED] = open_none },
};
