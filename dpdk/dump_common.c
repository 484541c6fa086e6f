/* dump_common.c - what lies in DPDK's rings and stacks, read where it lies, and for mbufpool's magazines
 * the way to dump_magazines.c: see dump_view.h.
 *
 * A handler is recognised by what its pool_data is: a ring or a stack in a memzone that has the
 * mempool's name. So a secondary process can, to which the primary's ops_index says nothing. What a
 * damaged or changing structure leads to isn't followed out of its memzone. */
/* (functions that are in line in rte_stack.h call one that is experimental) */
#ifndef ALLOW_EXPERIMENTAL_API
#define ALLOW_EXPERIMENTAL_API
#endif

#include <inttypes.h>
#include <stddef.h>
#include <string.h>

#include <rte_memzone.h>
#include <rte_ring.h>
#include <rte_stack.h>

#include "dump_view.h"

#define LOOKS 16 /* at a list that changes meanwhile */

#define read_now(at) __atomic_load_n(at, __ATOMIC_ACQUIRE)

/* ---- which one it is ---- */

size_t
dump_common_bytes(const struct rte_mempool *mp, const char *prefix, const void *at)
{
	char name[2 * RTE_MEMZONE_NAMESIZE];
	const struct rte_memzone *zone;

	snprintf(name, sizeof(name), "%s" RTE_MEMPOOL_MZ_FORMAT, prefix, mp->name);
	zone = rte_memzone_lookup(name);
	return zone != NULL && zone->addr == at ? zone->len : 0;
}

static void
recognise_ring(struct view *v, size_t bytes)
{
	const struct rte_ring *r = v->mp->pool_data;
	size_t slots;

	if (bytes < sizeof(*r))
		return;
	slots = (bytes - sizeof(*r)) / sizeof(void *);
	if (!rte_is_power_of_2(r->size) || r->size > slots || r->mask != r->size - 1 ||
	    r->capacity > r->mask)
		return;
	v->kind = COMMON_RING;
	v->capacity = r->capacity;
}

static void
recognise_stack(struct view *v, size_t bytes)
{
	const struct rte_stack *s = v->mp->pool_data;
	int is_free = bytes >= sizeof(*s) && (s->flags & RTE_STACK_F_LF) != 0;
	size_t before = is_free ? offsetof(struct rte_stack, stack_lf.elems)
				: offsetof(struct rte_stack, stack_std.objs);
	size_t each = is_free ? sizeof(struct rte_stack_lf_elem) : sizeof(void *);

	if (bytes < sizeof(*s) || s->capacity > (bytes - before) / each)
		return;
	v->kind = is_free ? COMMON_LF_STACK : COMMON_STACK;
	v->capacity = s->capacity;
}

void
dump_common_recognise(struct view *v)
{
	const struct rte_mempool *mp = v->mp;

	v->kind = COMMON_UNKNOWN;
	recognise_ring(v, dump_common_bytes(mp, RTE_RING_MZ_PREFIX, mp->pool_data));
	if (v->kind == COMMON_UNKNOWN)
		recognise_stack(v, dump_common_bytes(mp, RTE_STACK_MZ_PREFIX, mp->pool_data));
	if (v->kind == COMMON_UNKNOWN)
		dump_magazines_recognise(v);
}

int
dump_common_in_place(const struct view *v)
{
	return v->kind == COMMON_RING || v->kind == COMMON_STACK || v->kind == COMMON_LF_STACK ||
	       v->kind == COMMON_MAGAZINES;
}

static const char *
ring_name(const struct rte_ring *r)
{
	switch (r->prod.sync_type) {
	case RTE_RING_SYNC_MT_RTS:
		return "ring_mt_rts";
	case RTE_RING_SYNC_MT_HTS:
		return "ring_mt_hts";
	case RTE_RING_SYNC_ST:
		return r->cons.sync_type == RTE_RING_SYNC_ST ? "ring_sp_sc" : "ring_sp_mc";
	case RTE_RING_SYNC_MT:
		return r->cons.sync_type == RTE_RING_SYNC_ST ? "ring_mp_sc" : "ring_mp_mc";
	}
	return NULL;
}

const char *
dump_common_handler(const struct view *v)
{
	switch (v->kind) {
	case COMMON_RING:
		return ring_name(v->mp->pool_data);
	case COMMON_STACK:
		return "stack";
	case COMMON_LF_STACK:
		return "lf_stack";
	case COMMON_MAGAZINES:
		return "mbufpool";
	default:
		return NULL;
	}
}

/* ---- rings ---- */

/* How many objects are between the head and the tail of one end. The tail is at one place in each
 * kind of ring, and the head of one kind at another. */
static uint32_t
under_way(const struct rte_ring_headtail *end)
{
	const struct rte_ring_rts_headtail *rts = (const struct rte_ring_rts_headtail *)end;
	uint32_t tail = read_now(&end->tail), head;

	head = end->sync_type == RTE_RING_SYNC_MT_RTS ? read_now(&rts->head.val.pos)
						      : read_now(&end->head);
	return head - tail;
}

static void
ring_glance(struct view *v)
{
	const struct rte_ring *r = v->mp->pool_data;
	uint32_t got = under_way(&r->cons), put = under_way(&r->prod);

	if (got != 0 || put != 0)
		snprintf(v->unrest, sizeof(v->unrest),
			 "a get of %" PRIu32 " and a put of %" PRIu32 " were going on", got, put);
}

/* The slots from the consumer's tail to the producer's. What is got meanwhile may be overwritten
 * before it is read, and isn't listed. */
static void
ring_copy(struct view *v)
{
	const struct rte_ring *r = v->mp->pool_data;
	void *const *slots = (void *const *)&r[1];
	uint32_t from, to, i, got;

	from = read_now(&r->cons.tail);
	to = read_now(&r->prod.tail);
	if (to - from > v->capacity)
		from = to - v->capacity;
	v->nb_common = to - from;
	for (i = 0; i < v->nb_common; i++)
		v->common[i] = read_now(&slots[(from + i) & r->mask]);
	got = read_now(&r->cons.tail) - from;
	if (got == 0 || got > INT32_MAX)
		return;
	got = RTE_MIN(got, v->nb_common);
	v->nb_common -= got;
	memmove(v->common, v->common + got, v->nb_common * sizeof(*v->common));
}

/* ---- stacks ---- */

static void
stack_glance(struct view *v)
{
	const struct rte_stack *s = v->mp->pool_data;

	if (read_now(&s->stack_std.lock.locked) != 0)
		snprintf(v->unrest, sizeof(v->unrest), "a get or a put was going on");
}

static void
stack_copy(struct view *v)
{
	const struct rte_stack *s = v->mp->pool_data;
	uint32_t n = read_now(&s->stack_std.len), i;

	v->nb_common = RTE_MIN(n, v->capacity);
	for (i = 0; i < v->nb_common; i++)
		v->common[i] = read_now(&s->stack_std.objs[v->nb_common - 1 - i]);
}

/* Whether it is an element of the stack. */
static int
is_elem(const struct view *v, const struct rte_stack_lf_elem *e)
{
	const struct rte_stack *s = v->mp->pool_data;
	uintptr_t at = (uintptr_t)e - (uintptr_t)s->stack_lf.elems;

	return at < v->capacity * sizeof(*e) && at % sizeof(*e) == 0;
}

/* Walks along the list, and answers how many elements there are; `out` gets what they have, unless it
 * is NULL. */
static uint32_t
lf_walk(const struct view *v, void **out)
{
	const struct rte_stack *s = v->mp->pool_data;
	const struct rte_stack_lf_elem *e = read_now(&s->stack_lf.used.head.top);
	uint32_t n;

	for (n = 0; n < v->capacity && is_elem(v, e); n++) {
		if (out != NULL)
			out[n] = read_now(&e->data);
		e = read_now(&e->next);
	}
	return n;
}

/* Walks until nobody changes the list meanwhile, or a few times. */
static void
lf_look(struct view *v, void **out)
{
	const struct rte_stack_lf_list *list =
		&((const struct rte_stack *)v->mp->pool_data)->stack_lf.used;
	uint64_t count, length;
	unsigned int look = 0;

	do {
		count = read_now(&list->head.cnt);
		v->nb_common = lf_walk(v, out);
		length = read_now(&list->len);
	} while (read_now(&list->head.cnt) != count && ++look < LOOKS);
	if (look == LOOKS)
		snprintf(v->unrest, sizeof(v->unrest), "its list changed while it was read");
	else if (length != v->nb_common)
		snprintf(v->unrest, sizeof(v->unrest),
			 "its list has %" PRIu32 " objects, and its length is %" PRIu64,
			 v->nb_common, length);
}

/* ---- each of them ---- */

void
dump_common_glance(struct view *v)
{
	v->unrest[0] = 0;
	if (v->kind == COMMON_RING)
		ring_glance(v);
	else if (v->kind == COMMON_STACK)
		stack_glance(v);
	else if (v->kind == COMMON_LF_STACK)
		lf_look(v, NULL);
}

int
dump_common_copy(struct view *v)
{
	if (v->kind == COMMON_MAGAZINES)
		return dump_magazines_copy(v);
	if (v->kind == COMMON_LF_STACK) {
		v->unrest[0] = 0;
		lf_look(v, v->common);
		return 0;
	}
	dump_common_glance(v);
	if (v->kind == COMMON_RING)
		ring_copy(v);
	else if (v->kind == COMMON_STACK)
		stack_copy(v);
	return 0;
}

uint32_t
dump_common_count(const struct view *v)
{
	const struct rte_ring *r = v->mp->pool_data;
	const struct rte_stack *s = v->mp->pool_data;
	uint64_t n = 0;

	if (v->kind == COMMON_MAGAZINES)
		return dump_magazines_count(v);
	if (v->kind == COMMON_RING) {
		n = read_now(&r->cons.tail);
		n = (uint32_t)(read_now(&r->prod.tail) - n);
	} else if (v->kind == COMMON_STACK) {
		n = read_now(&s->stack_std.len);
	} else if (v->kind == COMMON_LF_STACK) {
		n = read_now(&s->stack_lf.used.len);
	}
	return RTE_MIN(n, v->capacity);
}
