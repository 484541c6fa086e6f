/* dump.c - snapshots of DPDK's mempools of mbufs, for `mbufpool audit FILE`: see dump.h. What is
 * written is what dump_view.c and dump_common.c copied. They need DPDK alone. */
#include <errno.h>
#include <inttypes.h>
#include <stdlib.h>
#include <string.h>

#include "dump_view.h"
#include "releases.h"

#define MAX_WORKERS 64
#define MAX_GUESTS 8192 /* for each worker */

/* Marks of an element: it is free, a `next` leads to it, it is in a packet that was found. */
#define IS_FREE 1
#define IS_NAMED 2
#define IS_REACHED 4

struct dump {
	struct view *views;
	unsigned int nb_views;
	struct lands lands; /* of all mempools */
	struct rte_mbuf *const *heads;
	struct rte_mbuf **found; /* those of them that are the dump's own */
	uint64_t nb_heads;
	uint32_t walks;
};

/* A walk along a chain, and the segment that it has come to. */
struct walk {
	const struct rte_mbuf *m, *next;
	const struct rte_mbuf *base; /* the mbuf whose buffer it uses, or NULL */
	struct view *view; /* the pool of the segment, or NULL if it isn't one of the dump's */
	struct view *last; /* that of the segment before it */
	uint32_t elem;	   /* its number, if it has a pool */
	uint32_t id, strange;
	int is_wild; /* it is no mbuf, and nothing may be read of it */
	int is_last;
};

/* The pool of an mbuf, or NULL, and its number. */
static struct view *
locate(struct dump *d, const void *m, uint32_t *elem)
{
	unsigned int i;

	for (i = 0; i < d->nb_views; i++) {
		*elem = dump_view_find(&d->views[i], m);
		if (*elem != NO_ELEM)
			return &d->views[i];
	}
	return NULL;
}

/* The pool of the buffer that a clone uses, or NULL if it uses none of these pools. */
static struct view *
locate_base(struct dump *d, const struct rte_mbuf *base, uint32_t *elem)
{
	return base == NULL ? NULL : locate(d, base, elem);
}

/* Whether what isn't an element of the dump's pools is an mbuf of another one. It is read only in
 * the memory of a mempool. */
static int
is_of_another(struct dump *d, const struct rte_mbuf *m)
{
	struct rte_mempool *mp = dump_lands_find(&d->lands, m, sizeof(*m));
	unsigned int i;

	for (i = 0; i < d->nb_views; i++)
		if (d->views[i].mp == mp)
			return 0;
	return mp != NULL && m->pool == mp;
}

static struct walk
walk_from(struct dump *d, const struct rte_mbuf *head)
{
	struct walk w = {.next = head, .id = ++d->walks};

	return w;
}

/* Comes to the next segment, and says whether there is one. A segment that the walk has met before
 * is its last, and so is what is no mbuf. */
static int
walk_on(struct dump *d, struct walk *w)
{
	struct shot shot;

	if (w->is_last || w->next == NULL)
		return 0;
	w->m = w->next;
	w->last = w->view;
	w->view = locate(d, w->m, &w->elem);
	if (w->view != NULL) {
		w->is_last = w->view->walked[w->elem] == w->id;
		w->view->walked[w->elem] = w->id;
		shot = w->view->shots[w->elem];
	} else if (w->strange++ == UINT16_MAX || !is_of_another(d, w->m)) {
		w->is_wild = 1;
		w->is_last = 1;
		return 1;
	} else {
		shot = dump_shot_of(w->m);
	}
	w->next = shot.next;
	w->base = shot.base;
	return 1;
}

/* The worker of an lcore, where that of the lcore before it is given. */
static unsigned int
worker_after(unsigned int worker)
{
	return RTE_MIN(worker + 1, (unsigned int)MAX_WORKERS);
}

/* How many workers a snapshot has. A pool with many guests gets some that have nothing. */
static unsigned int
workers_of(const struct view *v)
{
	unsigned int lcore, workers = 1;

	for (lcore = 0; lcore < RTE_MAX_LCORE; lcore++)
		if (v->nb_cached[lcore] > 0)
			workers = worker_after(workers);
	return RTE_MAX(workers, (unsigned int)((v->guests + MAX_GUESTS - 1) / MAX_GUESTS));
}

static void
note_free(struct view *v, void *const *objs, uint32_t n)
{
	uint32_t i, elem;

	for (i = 0; i < n; i++) {
		elem = dump_view_find(v, objs[i]);
		if (elem != NO_ELEM)
			v->marks[elem] |= IS_FREE;
	}
}

/* Notes which elements are free, of a view that was filled; nothing of its packets is known. */
static void
begin_packets(struct view *v)
{
	unsigned int lcore;

	memset(v->marks, 0, v->size * sizeof(*v->marks));
	memset(v->clones, 0, v->size * sizeof(*v->clones));
	memset(v->walked, 0, v->size * sizeof(*v->walked));
	v->based = 0;
	v->foreign = 0;
	v->guests = 0;
	note_free(v, v->common, v->nb_common);
	for (lcore = 0; lcore < RTE_MAX_LCORE; lcore++)
		note_free(v, &v->cached[lcore * MOST_CACHED], v->nb_cached[lcore]);
}

/* Whether an mbuf is one of a packet: it is in use, and not by clones of it alone. */
static int
is_own(const struct view *v, uint32_t elem)
{
	uint32_t clones = v->clones[elem];

	if ((v->marks[elem] & IS_FREE) != 0)
		return 0;
	return clones == 0 || v->shots[elem].refcnt > clones;
}

/* Marks the elements along a chain, the first or all of them. */
static void
mark_chain(struct dump *d, const struct rte_mbuf *m, uint8_t mark, int is_first)
{
	struct walk w = walk_from(d, m);

	while (walk_on(d, &w)) {
		if (w.view == NULL)
			continue;
		w.view->marks[w.elem] |= mark;
		if (is_first)
			return;
	}
}

/* Adds the packets that begin at elements without these marks. */
static void
add_heads(struct dump *d, uint8_t marks)
{
	struct view *v;
	uint32_t e;

	for (v = d->views; v < d->views + d->nb_views; v++)
		for (e = 0; e < v->size; e++) {
			if (!is_own(v, e) || (v->marks[e] & marks) != 0)
				continue;
			d->found[d->nb_heads++] = (struct rte_mbuf *)(uintptr_t)v->mbufs[e];
			mark_chain(d, v->mbufs[e], IS_REACHED, 0);
		}
}

/* Finds where the packets in use begin: at each mbuf that no other names, and then somewhere in
 * each chain that goes round. */
static int
find_heads(struct dump *d)
{
	struct view *v, *base;
	uint64_t all = 0;
	uint32_t e, elem;

	for (v = d->views; v < d->views + d->nb_views; v++) {
		all += v->size;
		for (e = 0; e < v->size; e++) {
			if ((v->marks[e] & IS_FREE) != 0)
				continue;
			base = locate_base(d, v->shots[e].base, &elem);
			if (base != NULL)
				base->clones[elem]++;
		}
	}
	d->found = calloc(all, sizeof(*d->found));
	if (d->found == NULL)
		return -ENOMEM;
	for (v = d->views; v < d->views + d->nb_views; v++)
		for (e = 0; e < v->size; e++)
			if (is_own(v, e))
				mark_chain(d, v->shots[e].next, IS_NAMED, 1);
	add_heads(d, IS_NAMED);
	add_heads(d, IS_REACHED);
	d->heads = d->found;
	return 0;
}

/* Counts the bases of the packets. */
static int
count_bases(struct dump *d)
{
	struct view *v, *base;
	struct walk w;
	uint64_t k;
	uint32_t elem;

	for (k = 0; k < d->nb_heads; k++) {
		w = walk_from(d, d->heads[k]);
		while (walk_on(d, &w)) {
			base = w.is_wild ? NULL : locate_base(d, w.base, &elem);
			if (base == NULL)
				continue;
			if (w.view == base) {
				base->based++;
				continue;
			}
			base->guests++;
			if (w.view != NULL)
				w.view->foreign++;
		}
	}
	for (v = d->views; v < d->views + d->nb_views; v++)
		if (v->guests > MAX_GUESTS * MAX_WORKERS)
			return -E2BIG;
	return 0;
}

/* Whether the bases of a pool's packets are elements of the other pool. */
static int
is_foreign(const struct view *v)
{
	return v->foreign > 0 && v->based == 0;
}

static void
write_objects(FILE *f, const struct view *v, void *const *objs, uint32_t n, const char *before)
{
	uint32_t i;

	for (i = 0; i < n; i++) {
		fprintf(f, "%s%" PRIu32, before, dump_view_find(v, objs[i]));
		before = ",";
	}
}

static void
write_segment(FILE *f, struct dump *d, const struct view *v, uint32_t elem)
{
	const struct shot *shot = &v->shots[elem];
	struct view *base;
	uint32_t at;

	base = locate_base(d, shot->base, &at);
	fprintf(f, "{\"elem\":%" PRIu32 ",\"base\":", elem);
	if (base != NULL && (base == v) != is_foreign(v))
		fprintf(f, "%" PRIu32, at);
	else
		fputs("null", f);
	fprintf(f, ",\"off\":%u,\"len\":%u,\"buf\":%u}", shot->off, shot->len, shot->buf);
}

/* Writes the segments of a packet that are of this pool, or null if there is none. What is no mbuf
 * stands as an element that no pool has, in the pool that its `next` was in. */
static void
write_packet(FILE *f, struct dump *d, struct view *v, const struct rte_mbuf *head)
{
	struct walk w = walk_from(d, head);
	const char *before = "[";

	while (walk_on(d, &w)) {
		if (w.is_wild && v == (w.last == NULL ? d->views : w.last)) {
			fprintf(f, "%s{\"elem\":%" PRIu32, before, NO_ELEM);
			fputs(",\"base\":null,\"off\":0,\"len\":0,\"buf\":0}", f);
			before = ",";
		} else if (w.view == v) {
			fputs(before, f);
			write_segment(f, d, v, w.elem);
			before = ",";
		}
	}
	fputs(before[0] == '[' ? "null" : "]", f);
}

static void
write_shares(FILE *f, struct dump *d, struct view *v, unsigned int workers)
{
	unsigned int lcore, worker = 1;
	void *const *cached;
	uint64_t k;

	fputs("\"shares\":[{\"worker\":1,\"cache\":[],\"slots\":[", f);
	for (k = 0; k < d->nb_heads; k++) {
		fputs(k == 0 ? "\n" : ",\n", f);
		write_packet(f, d, v, d->heads[k]);
	}
	for (lcore = 0; lcore < RTE_MAX_LCORE; lcore++) {
		if (v->nb_cached[lcore] == 0)
			continue;
		cached = &v->cached[lcore * MOST_CACHED];
		if (worker == MAX_WORKERS) {
			write_objects(f, v, cached, v->nb_cached[lcore], ",");
			continue;
		}
		fputs(worker == 1 ? "]}" : "],\"slots\":[]}", f);
		worker = worker_after(worker);
		fprintf(f, ",\n{\"worker\":%u,\"cache\":[", worker);
		write_objects(f, v, cached, v->nb_cached[lcore], "");
	}
	fputs(worker == 1 ? "]}" : "],\"slots\":[]}", f);
	while (worker++ < workers)
		fprintf(f, ",\n{\"worker\":%u,\"cache\":[],\"slots\":[]}", worker);
	fputs("],\n", f);
}

static void
write_guests(FILE *f, struct dump *d, struct view *v)
{
	const char *before = "";
	struct walk w;
	uint64_t k;
	uint32_t elem;

	fputs("\"guests\":[", f);
	for (k = 0; k < d->nb_heads; k++) {
		w = walk_from(d, d->heads[k]);
		while (walk_on(d, &w)) {
			if (w.is_wild || w.view == v || locate_base(d, w.base, &elem) != v)
				continue;
			fprintf(f, "%s{\"worker\":1,\"elem\":%" PRIu32 "}", before, elem);
			before = ",";
		}
	}
	fputs("],\n", f);
}

static void
write_snapshot(FILE *f, struct dump *d, struct view *v)
{
	unsigned int workers = workers_of(v);
	uint32_t e;

	fprintf(f, "{\"limits\":{\"population\":%" PRIu32 ",\"cache\":%" PRIu32, v->size,
		v->mp->cache_size);
	fprintf(f, ",\"workers\":%u,\"desks\":0,\"buf\":%u", workers,
		rte_pktmbuf_data_room_size(v->mp));
	fprintf(f, ",\"refs\":65535,\"tries\":64,\"start\":0,\"putrule\":%d},\n", PUT_RULE);
	fputs("\"common\":[", f);
	write_objects(f, v, v->common, v->nb_common, "");
	fputs("],\n\"counts\":[", f);
	for (e = 0; e < v->size; e++)
		fprintf(f, "%s%u", e == 0 ? "" : ",", v->shots[e].refcnt);
	fputs("],\n\"desks\":[],\n", f);
	write_shares(f, d, v, workers);
	write_guests(f, d, v);
	fprintf(f, "\"foreign\":%s}\n", is_foreign(v) ? "true" : "false");
}

/* The snapshot as text in memory, which the caller frees, or NULL if there is too little. */
static char *
snapshot_text(struct dump *d, struct view *v, size_t *length)
{
	char *text = NULL;
	FILE *f = open_memstream(&text, length);
	int is_bad;

	if (f == NULL)
		return NULL;
	write_snapshot(f, d, v);
	is_bad = ferror(f);
	if (fclose(f) == 0 && !is_bad)
		return text;
	free(text);
	return NULL;
}

static int
write_text(const char *text, size_t length, FILE *out)
{
	return fwrite(text, 1, length, out) == length && fflush(out) == 0 ? 0 : -EIO;
}

/* Writes snapshots of views that were filled, with these packets or, without, with all that are in
 * use. */
static int
write_views(struct view *views, unsigned int nb_views, struct rte_mbuf *const *heads,
	    uint64_t nb_heads, FILE *const *out)
{
	struct dump d = {.views = views, .nb_views = nb_views, .heads = heads, .nb_heads = nb_heads};
	char *text[2] = {NULL, NULL};
	size_t length[2];
	unsigned int i;
	int ret = dump_lands_of_all(&d.lands);

	for (i = 0; i < nb_views; i++)
		begin_packets(&views[i]);
	if (ret == 0 && heads == NULL && nb_heads == 0)
		ret = find_heads(&d);
	if (ret == 0)
		ret = count_bases(&d);
	for (i = 0; ret == 0 && i < nb_views; i++) {
		text[i] = snapshot_text(&d, &views[i], &length[i]);
		ret = text[i] == NULL ? -ENOMEM : 0;
	}
	for (i = 0; ret == 0 && i < nb_views; i++)
		ret = write_text(text[i], length[i], out[i]);
	for (i = 0; i < nb_views; i++)
		free(text[i]);
	free(d.found);
	free(d.lands.all);
	return ret;
}

int
dump_view_write(FILE *out, struct view *v)
{
	return write_views(v, 1, NULL, 0, &out);
}

/* Dumps a pool or two. */
static int
dump(struct rte_mempool *const *pools, unsigned int nb_pools, struct rte_mbuf *const *heads,
     uint64_t nb_heads, FILE *const *out)
{
	struct view *views = calloc(nb_pools, sizeof(*views));
	unsigned int i;
	int ret = views == NULL ? -ENOMEM : 0;

	for (i = 0; ret == 0 && i < nb_pools; i++)
		ret = dump_view_open(&views[i], pools[i]);
	for (i = 0; ret == 0 && i < nb_pools; i++)
		ret = dump_view_fill(&views[i]);
	if (ret == 0)
		ret = write_views(views, nb_pools, heads, nb_heads, out);
	for (i = 0; views != NULL && i < nb_pools; i++)
		dump_view_close(&views[i]);
	free(views);
	return ret;
}

/* No packets at all are a list of none, and not that of all in use. */
static struct rte_mbuf *const none[1];

int
mbufpool_dump(FILE *out, struct rte_mempool *mp)
{
	return dump(&mp, 1, NULL, 0, &out);
}

int
mbufpool_dump_held(FILE *out, struct rte_mempool *mp, struct rte_mbuf *const *held, unsigned int n)
{
	return dump(&mp, 1, n == 0 ? none : held, n, &out);
}

int
mbufpool_dump_pair(FILE *out_first, FILE *out_second, struct rte_mempool *first,
		   struct rte_mempool *second)
{
	struct rte_mempool *pools[] = {first, second};
	FILE *out[] = {out_first, out_second};

	return first == second ? -EINVAL : dump(pools, 2, NULL, 0, out);
}

int
mbufpool_dump_pair_held(FILE *out_first, FILE *out_second, struct rte_mempool *first,
			struct rte_mempool *second, struct rte_mbuf *const *held, unsigned int n)
{
	struct rte_mempool *pools[] = {first, second};
	FILE *out[] = {out_first, out_second};

	return first == second ? -EINVAL : dump(pools, 2, n == 0 ? none : held, n, out);
}

void
dump_view_write_workers(FILE *out, const struct view *v)
{
	unsigned int lcore, worker = 1;

	fputs("worker 1: the application\n", out);
	for (lcore = 0; lcore < RTE_MAX_LCORE; lcore++) {
		if (v->nb_cached[lcore] == 0)
			continue;
		worker = worker_after(worker);
		fprintf(out, "worker %u: lcore %u, cache of %" PRIu32 "\n", worker, lcore,
			v->nb_cached[lcore]);
	}
	if (v->unrest[0] != 0)
		fprintf(out, "common: %s\n", v->unrest);
}

void
mbufpool_dump_workers(FILE *out, struct rte_mempool *mp)
{
	struct view v = {0};

	dump_view_glance(&v, mp);
	dump_view_write_workers(out, &v);
}

/* An mbuf with its number, of which the one is looked for by the other. */
struct match {
	struct rte_mbuf *m;
	uint32_t elem;
};

static void
match_number(struct rte_mempool *mp, void *opaque, void *obj, unsigned int idx)
{
	struct match *match = opaque;

	RTE_SET_USED(mp);
	if (match->elem == idx)
		match->m = obj;
}

static void
match_address(struct rte_mempool *mp, void *opaque, void *obj, unsigned int idx)
{
	struct match *match = opaque;

	RTE_SET_USED(mp);
	if (match->m == obj)
		match->elem = idx;
}

struct rte_mbuf *
mbufpool_mbuf_of(struct rte_mempool *mp, uint32_t elem)
{
	struct match match = {NULL, elem};

	rte_mempool_obj_iter(mp, match_number, &match);
	return match.m;
}

uint32_t
mbufpool_elem_of(struct rte_mempool *mp, const struct rte_mbuf *m)
{
	struct match match = {(struct rte_mbuf *)(uintptr_t)m, NO_ELEM};

	rte_mempool_obj_iter(mp, match_address, &match);
	return match.elem;
}
