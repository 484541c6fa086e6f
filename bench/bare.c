/* bare.c - what stands below DPDK's own mempool handlers, without a mempool: rte_stack,
 * lock-free and with a lock, and rte_ring. Their elements are pointers to words, in which
 * checks mark them. */
#ifndef ALLOW_EXPERIMENTAL_API
#define ALLOW_EXPERIMENTAL_API /* the exchange of 128 bits, which the lock-free stack has in line */
#endif
#include <stdlib.h>
#include <string.h>

#include <rte_ring.h>
#include <rte_stack.h>

#include "rounds.h"

struct bare_pool {
	struct rte_stack *stack;
	struct rte_ring *ring;
	uint32_t population;
	uint32_t mark[];
};

static __rte_always_inline bool
pop(void *user, union refs *refs, unsigned int n)
{
	return rte_stack_pop(user, refs->object, n) == n;
}

static __rte_always_inline bool
push(void *user, const union refs *refs, unsigned int n)
{
	return rte_stack_push(user, refs->object, n) == n;
}

static __rte_always_inline bool
dequeue(void *user, union refs *refs, unsigned int n)
{
	return rte_ring_dequeue_bulk(user, refs->object, n, NULL) == n;
}

static __rte_always_inline bool
enqueue(void *user, const union refs *refs, unsigned int n)
{
	return rte_ring_enqueue_bulk(user, refs->object, n, NULL) == n;
}

static uint32_t *
mark_word(void *user, const union refs *refs, unsigned int i, unsigned int segment)
{
	(void)user;
	return segment == 0 ? refs->object[i] : NULL;
}

static int64_t
missing(struct pool *pool)
{
	const struct bare_pool *p = pool->at;

	return (int64_t)p->population -
		(p->stack != NULL ? rte_stack_count(p->stack) : rte_ring_count(p->ring));
}

static void
end(struct pool *pool)
{
	struct bare_pool *p = pool->at;

	rte_stack_free(p->stack);
	rte_ring_free(p->ring);
	free(p);
}

static const struct calls stacked = {
	.ref_size = sizeof(void *),
	.get = pop,
	.put = push,
	.mark = mark_word,
	.missing = missing,
	.close = end,
};
ELEMENT_PLAYS(stacked)

static const struct calls ringed = {
	.ref_size = sizeof(void *),
	.get = dequeue,
	.put = enqueue,
	.mark = mark_word,
	.missing = missing,
	.close = end,
};
ELEMENT_PLAYS(ringed)

/* Makes the words, before there is a stack or a ring. */
static struct bare_pool *
make(const struct cell *cell)
{
	struct bare_pool *p = calloc(1, sizeof(*p) + cell->population * sizeof(p->mark[0]));

	if (p != NULL)
		p->population = cell->population;
	return p;
}

/* Fills it with one word after another. */
static bool
fill(const struct cell *cell, struct bare_pool *p, void *user, struct pool *pool)
{
	union refs refs;
	uint32_t i;

	pool->at = p;
	for (i = 0; i < cell->population; i++) {
		refs.object[0] = &p->mark[i];
		if (!pool->calls->put(user, &refs, 1)) {
			end(pool);
			return false;
		}
	}
	for (i = 0; i < cell->threads; i++)
		pool->user[i] = user;
	return true;
}

bool
open_bare_stack(const struct subject *subject, const struct cell *cell, struct pool *pool)
{
	struct bare_pool *p = make(cell);

	if (p == NULL)
		return false;
	p->stack = rte_stack_create("bench", cell->population, SOCKET_ID_ANY,
		strcmp(subject->name, "lf_stack") == 0 ? RTE_STACK_F_LF : 0);
	if (p->stack == NULL) {
		free(p);
		return false;
	}
	pool->calls = &stacked;
	pool->play = stacked_plays[cell->workload];
	return fill(cell, p, p->stack, pool);
}

bool
open_bare_ring(const struct subject *subject, const struct cell *cell, struct pool *pool)
{
	struct bare_pool *p = make(cell);

	(void)subject;
	if (p == NULL)
		return false;
	p->ring = rte_ring_create("bench", rte_align32pow2(cell->population + 1), SOCKET_ID_ANY, 0);
	if (p->ring == NULL) {
		free(p);
		return false;
	}
	pool->calls = &ringed;
	pool->play = ringed_plays[cell->workload];
	return fill(cell, p, p->ring, pool);
}
