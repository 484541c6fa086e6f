/* dump_alike.c - see dump_alike.h. The data are read where the program has them: in memory that it
 * shares, so that of a buffer elsewhere nothing is known. */
#include <errno.h>
#include <inttypes.h>
#include <stdlib.h>
#include <string.h>

#include <rte_memory.h>

#include "dump_alike.h"

#define MOST_GROUPS 20 /* lines that are written */
#define SHOWN 3	       /* addresses in each */

/* ---- what the mbufs say ---- */

static int
is_shared(const char *at, size_t bytes)
{
	const struct rte_memseg_list *list = rte_mem_virt2memseg_list(at);

	return list != NULL && !list->external && rte_mem_virt2memseg(at, list) != NULL &&
	       rte_mem_virt2memseg_list(at + bytes - 1) == list &&
	       rte_mem_virt2memseg(at + bytes - 1, list) != NULL;
}

static void
take_look(struct look *look, const struct rte_mbuf *m, const struct shot *shot)
{
	const char *data = (const char *)m->buf_addr + shot->off;

	look->port = m->port;
	look->nb_data = RTE_MIN(shot->len, MOST_DATA);
	look->is_known = look->nb_data == 0 || is_shared(data, look->nb_data);
	if (look->is_known)
		memcpy(look->data, data, look->nb_data);
}

static int
is_same(const struct shot *a, const struct shot *b)
{
	return a->next == b->next && a->base == b->base && a->refcnt == b->refcnt && a->off == b->off &&
	       a->len == b->len && a->buf == b->buf;
}

static void
mark(const struct view *v, uint8_t *is_free, void *const *objs, uint32_t n)
{
	uint32_t k, elem;

	for (k = 0; k < n; k++) {
		elem = dump_view_find(v, objs[k]);
		if (elem != NO_ELEM)
			is_free[elem] = 1;
	}
}

/* Marks what is free, and answers how many mbufs aren't. */
static uint32_t
mark_free(const struct view *v, uint8_t *is_free)
{
	unsigned int lcore;
	uint32_t e, used = 0;

	mark(v, is_free, v->common, v->nb_common);
	for (lcore = 0; lcore < RTE_MAX_LCORE; lcore++)
		mark(v, is_free, &v->cached[lcore * MOST_CACHED], v->nb_cached[lcore]);
	for (e = 0; e < v->size; e++)
		used += !is_free[e];
	return used;
}

int
looks_take(struct looks *looks, const struct view *v)
{
	uint8_t *is_free = calloc(v->size, 1);
	uint32_t used = is_free == NULL ? 0 : mark_free(v, is_free), e;
	struct shot now;

	looks->all = calloc((size_t)used + 1, sizeof(*looks->all));
	if (is_free == NULL || looks->all == NULL) {
		free(is_free);
		return -ENOMEM;
	}
	for (e = 0; e < v->size; e++) {
		if (is_free[e])
			continue;
		now = dump_shot_of(v->mbufs[e]);
		if (!is_same(&now, &v->shots[e]))
			continue;
		looks->all[looks->count].elem = e;
		take_look(&looks->all[looks->count++], v->mbufs[e], &now);
	}
	free(is_free);
	return 0;
}

static int
by_elem(const void *a, const void *b)
{
	const struct look *p = a, *q = b;

	return (p->elem > q->elem) - (p->elem < q->elem);
}

static const struct look *
find_look(const struct looks *looks, uint32_t elem)
{
	const struct look wanted = {.elem = elem};

	return looks->count == 0 ? NULL
				 : bsearch(&wanted, looks->all, looks->count, sizeof(wanted), by_elem);
}

void
looks_end(struct looks *looks)
{
	free(looks->all);
	memset(looks, 0, sizeof(*looks));
}

/* ---- groups ---- */

/* What packets have alike: all but the element. */
struct kind {
	unsigned long segs, len;
	const struct look *look; /* or NULL where nothing is known of it */
	uint32_t elem;
};

struct group {
	const struct kind *first; /* as many of these, behind one another */
	size_t count;
};

static int
by_look(const struct look *p, const struct look *q)
{
	if (p == NULL || q == NULL)
		return (p != NULL) - (q != NULL);
	if (p->port != q->port)
		return p->port < q->port ? -1 : 1;
	if (p->is_known != q->is_known)
		return p->is_known < q->is_known ? -1 : 1;
	if (p->nb_data != q->nb_data)
		return p->nb_data < q->nb_data ? -1 : 1;
	return memcmp(p->data, q->data, p->nb_data);
}

static int
by_likeness(const struct kind *p, const struct kind *q)
{
	if (p->segs != q->segs)
		return p->segs < q->segs ? -1 : 1;
	if (p->len != q->len)
		return p->len < q->len ? -1 : 1;
	return by_look(p->look, q->look);
}

static int
by_kind(const void *a, const void *b)
{
	const struct kind *p = a, *q = b;
	int order = by_likeness(p, q);

	return order != 0 ? order : (p->elem > q->elem) - (p->elem < q->elem);
}

static int
by_count(const void *a, const void *b)
{
	const struct group *p = a, *q = b;

	if (p->count != q->count)
		return p->count > q->count ? -1 : 1;
	return (p->first->elem > q->first->elem) - (p->first->elem < q->first->elem);
}

/* Reads `segs S len L: E@..`, the line of a packet. */
static struct kind
kind_of(const char *line, const struct looks *looks)
{
	struct kind kind = {.elem = NO_ELEM};

	sscanf(line, "segs %lu len %lu: %" SCNu32, &kind.segs, &kind.len, &kind.elem);
	kind.look = find_look(looks, kind.elem);
	return kind;
}

/* Puts kinds that are alike behind one another, and answers how many groups these are. */
static size_t
group_kinds(struct group *groups, struct kind *kinds, size_t count)
{
	size_t k, nb_groups = 0;

	if (count > 0)
		qsort(kinds, count, sizeof(*kinds), by_kind);
	for (k = 0; k < count; k++)
		if (k > 0 && by_likeness(&kinds[k - 1], &kinds[k]) == 0)
			groups[nb_groups - 1].count++;
		else
			groups[nb_groups++] = (struct group){&kinds[k], 1};
	if (nb_groups > 0)
		qsort(groups, nb_groups, sizeof(*groups), by_count);
	return nb_groups;
}

/* ---- what is said ---- */

static void
write_data(FILE *out, const struct kind *kind)
{
	const struct look *look = kind->look;
	unsigned int k;

	if (look == NULL) {
		fputs(", port and data unknown", out);
		return;
	}
	if (look->port == RTE_MBUF_PORT_INVALID)
		fputs(", no port", out);
	else
		fprintf(out, ", port %u", look->port);
	if (!look->is_known || look->nb_data == 0) {
		fputs(look->is_known ? ", no data" : ", data unknown", out);
		return;
	}
	fputs(", data ", out);
	for (k = 0; k < look->nb_data; k++)
		fprintf(out, "%02x", look->data[k]);
	if (kind->len > look->nb_data)
		fputs("..", out);
}

static void
write_group(FILE *out, const struct group *group, const struct view *v)
{
	size_t k;

	fprintf(out, "stays: %zu packet%s: segs %lu len %lu", group->count,
		group->count == 1 ? "" : "s", group->first->segs, group->first->len);
	write_data(out, group->first);
	for (k = 0; k < RTE_MIN(group->count, (size_t)SHOWN); k++)
		if (group->first[k].elem < v->size)
			fprintf(out, "%s %p", k == 0 ? ":" : ",",
				(const void *)v->mbufs[group->first[k].elem]);
	fputs("\n", out);
}

int
looks_write(FILE *out, const struct lines *packets, const struct looks *looks, const struct view *v)
{
	struct kind *kinds = calloc(packets->count + 1, sizeof(*kinds));
	struct group *groups = calloc(packets->count + 1, sizeof(*groups));
	size_t k, nb_groups, rest = 0;

	if (kinds == NULL || groups == NULL) {
		free(kinds);
		free(groups);
		return -ENOMEM;
	}
	for (k = 0; k < packets->count; k++)
		kinds[k] = kind_of(packets->all[k].text, looks);
	nb_groups = group_kinds(groups, kinds, packets->count);
	for (k = 0; k < nb_groups; k++)
		if (k < MOST_GROUPS)
			write_group(out, &groups[k], v);
		else
			rest += groups[k].count;
	if (rest > 0)
		fprintf(out, "stays: %zu packet%s of %zu more kind%s: --each lists each\n", rest,
			rest == 1 ? "" : "s", nb_groups - MOST_GROUPS,
			nb_groups - MOST_GROUPS == 1 ? "" : "s");
	free(kinds);
	free(groups);
	return 0;
}
