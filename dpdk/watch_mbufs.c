/* watch_mbufs.c - the watched mbufs of a mempool: which they are, which of them wait, and whether one was
 * written while it waited.
 *
 * Which of them are out says a guarded pool of libmbufpool_c.a, of as many elements, with one worker, which
 * keeps all that is put and gives first what was put first. It takes a put of what is out alone. That, and
 * what is noted here, is done under the mempool's lock: a watched mbuf moves once in some thousand. */
#include <errno.h>
#include <stdlib.h>
#include <string.h>

#include <rte_cycles.h>
#include <rte_malloc.h>

#include "watch.h"

#define TRIES 1000000
#define PATTERN UINT64_C(0x6b6b6b6b6b6b6b6b)
#define PATTERN_BYTE 0x6b

/* ---- which they are ---- */

/* Objects are a stride apart at least, so that two never have the same number of strides before them. */
static inline uint32_t
strides_to(const struct watch *s, const void *object)
{
	__extension__ typedef unsigned __int128 product;

	return ((product)((uintptr_t)object - s->first) * s->inverse) >> 64;
}

uint32_t
watch_number(const struct watch *s, const void *object)
{
	uint32_t number;

	if (!is_near(s, object))
		return s->count;
	number = s->numbers[strides_to(s, object)];
	return number != 0 && s->all[number - 1].mbuf == object ? number - 1 : s->count;
}

/* ---- what one looks like that waits ---- */

static unsigned char *
kept_of(const struct watch *s, uint32_t number)
{
	return s->kept + (size_t)number * s->kept_bytes;
}

/* The mbuf's own data room, whatever its header says. */
static uint64_t *
room_of(const struct watch *s, uint32_t number)
{
	return (uint64_t *)((char *)s->all[number].mbuf + s->kept_bytes);
}

/* Keeps the header, and writes the pattern to the data room. Not where a count says that another one uses the
 * data, or where it was among the last that there were: then it will soon be given again. */
static void
keep(struct watch *s, uint32_t number)
{
	struct watched *w = &s->all[number];
	uint64_t *room = room_of(s, number);
	uint32_t i;

	w->is_kept = w->past.how_got != AS_LAST && rte_mbuf_refcnt_read(w->mbuf) == 1;
	if (!w->is_kept)
		return;
	memcpy(kept_of(s, number), w->mbuf, s->kept_bytes);
	for (i = 0; i < s->room / sizeof(*room); i++)
		room[i] = PATTERN;
}

/* Notes from where to where bytes differ from what they were. */
static void
note_finding(struct finding *found, const char *part, const unsigned char *is, const unsigned char *was,
	size_t n)
{
	size_t at = 0, end = n;

	while (at < n && is[at] == (was != NULL ? was[at] : PATTERN_BYTE))
		at++;
	while (end > at && is[end - 1] == (was != NULL ? was[end - 1] : PATTERN_BYTE))
		end--;
	found->part = part;
	found->at = at;
	found->bytes = end - at;
	memcpy(found->sample, is + at, RTE_MIN(end - at, sizeof(found->sample)));
}

/* Looks at the header and at the area of the program behind it, and lets them be as they were. */
static unsigned int
compare_kept(struct watch *s, uint32_t number, struct finding *found)
{
	static const char *const names[] = { "header", "private area" };
	const size_t from[] = { 0, sizeof(struct rte_mbuf), s->kept_bytes };
	unsigned char *is = (unsigned char *)s->all[number].mbuf, *was = kept_of(s, number);
	unsigned int i, n = 0;

	for (i = 0; i < RTE_DIM(names); i++) {
		size_t bytes = from[i + 1] - from[i];

		if (bytes == 0 || memcmp(is + from[i], was + from[i], bytes) == 0)
			continue;
		note_finding(&found[n++], names[i], is + from[i], was + from[i], bytes);
		memcpy(is + from[i], was + from[i], bytes);
	}
	return n;
}

/* Looks whether an mbuf was written while it waited: in how many parts, of which each is a finding. */
static unsigned int
compare(struct watch *s, uint32_t number, struct finding *found)
{
	const uint64_t *room = room_of(s, number);
	uint64_t differs = 0;
	unsigned int n;
	uint32_t i;

	if (!s->all[number].is_kept)
		return 0;
	n = compare_kept(s, number, found);
	for (i = 0; i < s->room / sizeof(*room); i++)
		differs |= room[i] ^ PATTERN;
	if (unlikely(differs != 0))
		note_finding(&found[n++], "data room", (const unsigned char *)room, NULL, s->room & ~7u);
	return n;
}

static void
tell_findings(struct watch *s, uint32_t number, const struct past *past, const struct finding *found,
	unsigned int n)
{
	unsigned int i;

	if (likely(n == 0))
		return;
	__atomic_fetch_add(&s->written, 1, __ATOMIC_RELAXED);
	for (i = 0; i < n; i++)
		watch_log_written(s, number, past, &found[i]);
}

/* ---- gets and puts ---- */

static void
set_waiting(struct watch *s, uint32_t waiting)
{
	__atomic_store_n(&s->waiting, waiting, __ATOMIC_RELAXED);
}

/* (of one worker nobody wins an exchange; and no run has met another cause) */
static uint32_t
guard_get(struct watch *s, uint32_t *number)
{
	uint32_t cause;

	while ((cause = mbufpool_guard_get_one(&s->guard, number)) == MBUFPOOL_CONTENDED)
		;
	return cause;
}

static uint32_t
guard_put(struct watch *s, uint32_t number)
{
	uint32_t cause;

	while ((cause = mbufpool_guard_put_one(&s->guard, number)) == MBUFPOOL_CONTENDED)
		;
	return cause;
}

/* Notes who got one, and looks at it. One that is among the last that there are goes by the program's own pool,
 * so that its frees are as quick as others. */
static unsigned int
give(struct watch *s, uint32_t number, const struct past *get, struct past *past, struct finding *found)
{
	struct watched *w = &s->all[number];
	unsigned int n = compare(s, number, found);

	*past = w->past;
	w->past.got = get->got;
	w->past.how_got = get->how_got;
	w->past.port = get->port;
	w->past.gets++;
	w->since = rte_rdtsc();
	w->is_out = 1;
	w->mbuf->pool = get->how_got == AS_LAST ? s->mp : s->alias;
	set_waiting(s, s->waiting - 1);
	return n;
}

int
watch_get(struct watch *s, struct rte_mbuf **out, const struct past *get)
{
	struct finding found[PARTS];
	struct past past;
	unsigned int n = 0;
	uint32_t number, cause;

	if (watch_waiting(s) == 0)
		return 0;
	rte_spinlock_lock(&s->lock);
	cause = guard_get(s, &number);
	if (likely(cause == 0)) {
		n = give(s, number, get, &past, found);
		*out = s->all[number].mbuf;
	}
	rte_spinlock_unlock(&s->lock);
	if (unlikely(cause != 0)) {
		if (cause != MBUFPOOL_NO_ENTRIES)
			watch_log_fault(s, "get", cause);
		return 0;
	}
	tell_findings(s, number, &past, found, n);
	return 1;
}

/* (what the pool refuses for another cause than that it isn't out is lost to the watch alone: it goes to the
 * program's pool) */
static int
refuse(struct watch *s, uint32_t number, uint32_t cause, const struct past *past, caller by,
	unsigned int how)
{
	void *object = s->all[number].mbuf;

	if (cause == MBUFPOOL_NOT_OUT) {
		__atomic_fetch_add(&s->refused, 1, __ATOMIC_RELAXED);
		watch_log_refused(s, number, past, by, how);
		return -ENOBUFS;
	}
	watch_log_fault(s, "put", cause);
	s->all[number].mbuf->pool = s->mp;
	return wrapped_put(s, &object, 1);
}

int
watch_put(struct watch *s, uint32_t number, caller by, unsigned int how)
{
	struct watched *w = &s->all[number];
	struct past past;
	uint32_t cause;

	rte_spinlock_lock(&s->lock);
	cause = guard_put(s, number);
	if (likely(cause == 0)) {
		w->past.put = by;
		w->past.how_put = how;
		w->since = rte_rdtsc();
		w->is_out = 0;
		keep(s, number);
		set_waiting(s, s->waiting + 1);
	}
	past = w->past;
	rte_spinlock_unlock(&s->lock);
	return likely(cause == 0) ? 0 : refuse(s, number, cause, &past, by, how);
}

void
watch_put_back(struct watch *s, struct rte_mbuf *m)
{
	uint32_t number = watch_number(s, m), cause;

	rte_spinlock_lock(&s->lock);
	cause = guard_put(s, number);
	if (cause == 0) {
		s->all[number].is_out = 0;
		s->all[number].is_kept = 0;
		set_waiting(s, s->waiting + 1);
	}
	rte_spinlock_unlock(&s->lock);
	if (unlikely(cause != 0))
		refuse(s, number, cause, &s->all[number].past, 0, IN_A_LIST);
}

/* ---- the making, while the mempool is filled ---- */

static int
by_address(const void *a, const void *b)
{
	uintptr_t x = *(const uintptr_t *)a, y = *(const uintptr_t *)b;

	return (x > y) - (x < y);
}

/* Of which mempools nothing is watched, and why. */
static const char *
why_none(const struct rte_mempool *mp)
{
	const struct rte_pktmbuf_pool_private *own;

#ifdef RTE_LIBRTE_MEMPOOL_DEBUG
	return "its cookies say of each mbuf which mempool it is of";
#endif
	if (mp->private_data_size < sizeof(*own))
		return "its objects aren't mbufs";
	own = rte_mempool_get_priv((struct rte_mempool *)(uintptr_t)mp);
	if (own->flags & RTE_PKTMBUF_POOL_F_PINNED_EXT_BUF)
		return "its mbufs have pinned external buffers";
	if (mp->elt_size != RTE_ALIGN_CEIL(sizeof(struct rte_mbuf) + own->mbuf_priv_size +
			own->mbuf_data_room_size, sizeof(uint64_t)))
		return "its objects aren't mbufs with their buffers";
	return NULL;
}

/* The pool of watched mbufs has the program's name and private data, and no cache. */
static int
make_alias(struct watch *s)
{
	struct rte_mempool *mp = s->mp;

	s->alias = rte_zmalloc_socket("mbufpool_watch", sizeof(*s->alias) + mp->private_data_size,
		RTE_CACHE_LINE_SIZE, mp->socket_id);
	return s->alias != NULL;
}

static int
make_tables(struct watch *s, uint32_t n)
{
	const struct rte_pktmbuf_pool_private *own = rte_mempool_get_priv(s->mp);

	s->kept_bytes = sizeof(struct rte_mbuf) + own->mbuf_priv_size;
	s->room = own->mbuf_data_room_size;
	s->all = calloc(n, sizeof(*s->all));
	s->kept = calloc(n, s->kept_bytes);
	return s->all != NULL && s->kept != NULL;
}

/* Leaves out those that lie farthest apart from the others, until a table over what is between the first and
 * the last is no larger than some numbers for each of the mempool's objects. They go back. */
static uint32_t
keep_near(struct watch *s, void **objects, uint32_t n, uint64_t stride)
{
	const uint64_t most = ((uint64_t)s->mp->size * 4 + 4096) * stride;
	uint32_t from = 0, middle;

	while (n > 1 && (uintptr_t)objects[from + n - 1] - (uintptr_t)objects[from] >= most) {
		middle = from + n / 2;
		n--;
		if ((uintptr_t)objects[middle] - (uintptr_t)objects[from] >
			(uintptr_t)objects[from + n] - (uintptr_t)objects[middle]) {
			wrapped_put(s, &objects[from], 1);
			from++;
		} else {
			wrapped_put(s, &objects[from + n], 1);
		}
	}
	memmove(objects, objects + from, n * sizeof(*objects));
	return n;
}

/* Numbers them by their addresses. */
static int
number_all(struct watch *s, void **objects, uint32_t n, uint64_t stride)
{
	const uintptr_t first = (uintptr_t)objects[0], bytes = (uintptr_t)objects[n - 1] + 1 - first;
	uint32_t i;

	s->first = first;
	s->inverse = UINT64_MAX / stride + 1;
	s->numbers = calloc(strides_to(s, objects[n - 1]) + 1, sizeof(*s->numbers));
	if (s->numbers == NULL)
		return 0;
	for (i = 0; i < n; i++) {
		s->all[i].mbuf = objects[i];
		s->numbers[strides_to(s, objects[i])] = i + 1;
	}
	s->count = s->waiting = n;
	s->bytes = bytes;
	return 1;
}

/* All elements of the library's new pool are out: they wait, in the order of their numbers. */
static int
let_all_wait(struct watch *s, uint32_t n)
{
	uint32_t i, cause = 0;

	for (i = 0; i < n && cause == 0; i++)
		cause = mbufpool_guard_put_one(&s->guard, i);
	return cause == 0;
}

static const char *
make_of(struct watch *s, void **objects, uint32_t n)
{
	const uint64_t stride = (uint64_t)s->mp->header_size + s->mp->elt_size + s->mp->trailer_size;

	qsort(objects, n, sizeof(*objects), by_address);
	n = keep_near(s, objects, n, stride);
	if (make_alias(s) && make_tables(s, n) &&
		mbufpool_guard_open(n, 0, n, 1, TRIES, &s->guard) == 0 && let_all_wait(s, n) &&
		number_all(s, objects, n, stride))
		return NULL;
	wrapped_put(s, objects, n);
	return "there is no memory for it";
}

const char *
watch_make(struct watch *s)
{
	uint32_t n = RTE_MIN(s->wishes.mbufs, (uint64_t)s->mp->size / 4);
	const char *reason = why_none(s->mp);
	void **objects;

	if (reason != NULL)
		return reason;
	if (n == 0)
		return s->wishes.mbufs == 0 ? "so MBUFPOOL_WATCH_MBUFS asks" : "it has fewer than 4 mbufs";
	objects = calloc(n, sizeof(*objects));
	if (objects == NULL || !call_places_begin())
		reason = "there is no memory for it";
	else if (wrapped_get(s, objects, n) != 0)
		reason = "the handler below doesn't give as many mbufs at once";
	else
		reason = make_of(s, objects, n);
	free(objects);
	return reason;
}

/* Whether one is as rte_pktmbuf_init() makes it. */
static int
is_mbuf(const struct watch *s, const struct rte_mbuf *m)
{
	return m->pool == s->mp && m->buf_addr == (const char *)m + s->kept_bytes &&
	       m->priv_size + sizeof(*m) == s->kept_bytes;
}

const char *
watch_begin(struct watch *s)
{
	void *objects[64];
	uint32_t from, i, n;

	if (is_mbuf(s, s->all[0].mbuf) && is_mbuf(s, s->all[s->count - 1].mbuf)) {
		*s->alias = *s->mp;
		s->alias->cache_size = 0;
		s->alias->local_cache = NULL;
		memcpy(rte_mempool_get_priv(s->alias), rte_mempool_get_priv(s->mp),
			s->mp->private_data_size);
		return NULL;
	}
	s->bytes = 0;
	set_waiting(s, 0);
	for (from = 0; from < s->count; from += n) {
		n = RTE_MIN(s->count - from, RTE_DIM(objects));
		for (i = 0; i < n; i++)
			objects[i] = s->all[from + i].mbuf;
		wrapped_put(s, objects, n);
	}
	return "its mbufs weren't made by rte_pktmbuf_init()";
}

/* (DPDK gets each object of a mempool that ends, so that what waited was looked at) */
void
watch_end(struct watch *s)
{
	mbufpool_guard_end(&s->guard);
	free(s->all);
	free(s->kept);
	free(s->numbers);
	free(s->told_old);
	rte_free(s->alias);
}
