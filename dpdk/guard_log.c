/* guard_log.c - the lines that the handler "mbufpool_guard" logs. */
#include <execinfo.h>
#include <inttypes.h>
#include <stdio.h>
#include <string.h>
#include <time.h>

#include <rte_log.h>
#include <rte_mbuf.h>

#include "guard_pool.h"
#include "library_causes.h"

#define LINES_A_SECOND 10
#define LINE_BITS 8
#define LAST_TEXT (CALL_TEXT + PLACE_TEXT + 32) /* bytes of who and where as text */

#define LOG(level, p, format, ...) \
	rte_log(RTE_LOG_##level, RTE_LOGTYPE_MEMPOOL, "mbufpool_guard: pool %s: " format "\n", \
		(p)->mp->name, __VA_ARGS__)

/* Writes the calls on the way to the one that is told, from the nearest on, as far as the stack can
 * be unwound: where DPDK's rte_pktmbuf_free() isn't in line, or a library frees, they say whose call
 * it was. (apart, as of no other call than this one the way is known, but where all are noted) */
static const char *
way_text(caller by, char *text)
{
	const uintptr_t *calls = call_place_calls(by % MAX_WAYS);
	void *frames[MAX_CALLS + 16];
	int n = guard_calls == 0 && calls != NULL ? backtrace(frames, RTE_DIM(frames)) : 0, i, k;
	char call[CALL_TEXT];
	size_t length = 0;

	text[0] = 0;
	for (i = 0; i < n; i++)
		if ((uintptr_t)frames[i] - 1 == calls[0])
			break;
	for (k = i + 1; k < n && k <= i + MAX_CALLS; k++)
		length += snprintf(text + length, PLACE_TEXT - length, "%s %s",
			k == i + 1 ? "; called from" : ",",
			call_address_text((uintptr_t)frames[k] - 1, call));
	return text;
}

/* Takes one of this second's lines, if there is one. */
static int
take_line(struct guard_pool *p)
{
	uint64_t seen = __atomic_load_n(&p->limit.window, __ATOMIC_RELAXED), now, next;
	struct timespec time;

	clock_gettime(CLOCK_MONOTONIC, &time);
	now = (uint64_t)time.tv_sec << LINE_BITS;
	do {
		next = seen >> LINE_BITS == now >> LINE_BITS ? seen + 1 : now + 1;
		if (next - now > LINES_A_SECOND)
			return 0;
	} while (!__atomic_compare_exchange_n(
		&p->limit.window, &seen, next, 0, __ATOMIC_RELAXED, __ATOMIC_RELAXED));
	guard_log_left_out(p);
	return 1;
}

/* The same for a refused put, which is counted where it has no line. */
static int
take_line_of_put(struct guard_pool *p)
{
	if (take_line(p))
		return 1;
	__atomic_fetch_add(&p->limit.left_out, 1, __ATOMIC_RELAXED);
	return 0;
}

void
guard_log_left_out(struct guard_pool *p)
{
	uint64_t left_out = 0;

	if (__atomic_load_n(&p->limit.left_out, __ATOMIC_RELAXED) != 0)
		left_out = __atomic_exchange_n(&p->limit.left_out, 0, __ATOMIC_RELAXED);
	if (left_out != 0)
		LOG(ERR, p, "%" PRIu64 " more puts were refused, whose lines are left out", left_out);
}

/* Whether objects are as large as mbufs, by what a pool of mbufs says of itself. */
static const char *
kind_of(const struct rte_mempool *mp)
{
	const struct rte_pktmbuf_pool_private *own;

	if (mp->private_data_size < sizeof(*own))
		return "object";
	own = rte_mempool_get_priv((struct rte_mempool *)(uintptr_t)mp);
	return mp->elt_size == sizeof(struct rte_mbuf) + own->mbuf_priv_size +
					own->mbuf_data_room_size
		? "mbuf"
		: "object";
}

/* Writes "got by lcore 3 at app+0x804a", or that nobody got it. */
static const char *
got_text(caller got, char *text)
{
	char lcore[CALL_TEXT], place[PLACE_TEXT];

	if (got == 0)
		snprintf(text, LAST_TEXT, "never got");
	else
		snprintf(text, LAST_TEXT, "got by %s at %s", caller_lcore_text(got, lcore),
			caller_place_text(got, place));
	return text;
}

/* Writes "put before by lcore 3 at app+0x8398", or that another put it within some nanoseconds, who isn't
 * noted. */
static const char *
put_text(caller put, char *text)
{
	char lcore[CALL_TEXT], place[PLACE_TEXT];

	if (put == 0)
		snprintf(text, LAST_TEXT, "another put it meanwhile");
	else
		snprintf(text, LAST_TEXT, "put before by %s at %s", caller_lcore_text(put, lcore),
			caller_place_text(put, place));
	return text;
}

/* Writes that the element had owners before the last one, where it had. */
static const char *
again_text(uint32_t gets, char *text)
{
	text[0] = 0;
	if (gets == 2)
		snprintf(text, LAST_TEXT, ", or its old owner freed it late: it was given again once");
	else if (gets != 1 && gets != 0)
		snprintf(text, LAST_TEXT,
			", or its old owner freed it late: it was given again %" PRIu32 " times", gets - 1);
	return text;
}

/* An element that is in the pool: who put it there, and who had got it. It may have been put early, and
 * given to another, who put it now or before: then that one isn't to blame. */
void
guard_log_not_out(struct guard_pool *p, uint32_t element, caller put, caller by)
{
	caller got = __atomic_load_n(&p->pasts[element].got, __ATOMIC_RELAXED);
	uint32_t gets = __atomic_load_n(&p->pasts[element].gets, __ATOMIC_RELAXED);
	char lcore[CALL_TEXT], place[PLACE_TEXT], put_before[LAST_TEXT], got_before[LAST_TEXT],
		again[LAST_TEXT], way[PLACE_TEXT];

	if (!take_line_of_put(p))
		return;
	LOG(ERR, p,
		"%s %p (element %" PRIu32 ") is put by %s at %s and isn't out: %s, %s%s%s",
		kind_of(p->mp), p->objects[element], p->numbers[element], caller_lcore_text(by, lcore),
		caller_place_text(by, place), put_text(put, put_before), got_text(got, got_before),
		again_text(gets, again), way_text(by, way));
}

/* An element that a worker kept and another put. */
void
guard_log_late(struct guard_pool *p, uint32_t element)
{
	struct past past = { .both = __atomic_load_n(&p->pasts[element].both, __ATOMIC_RELAXED) };
	char lcore[CALL_TEXT], place[PLACE_TEXT], got[LAST_TEXT];

	if (!take_line(p))
		return;
	if (past.put == 0)
		LOG(ERR, p,
			"%s %p (element %" PRIu32 ") was put while it was in the pool, and given again "
			"since: %s",
			kind_of(p->mp), p->objects[element], p->numbers[element], got_text(past.got, got));
	else
		LOG(ERR, p,
			"%s %p (element %" PRIu32 ") was put by %s at %s while it was in the pool, or by "
			"another if it was given again since: %s",
			kind_of(p->mp), p->objects[element], p->numbers[element], caller_lcore_text(past.put, lcore),
			caller_place_text(past.put, place), got_text(past.got, got));
}

void
guard_log_stranger(struct guard_pool *p, const void *object, caller by)
{
	char lcore[CALL_TEXT], place[PLACE_TEXT], way[PLACE_TEXT];

	if (take_line_of_put(p))
		LOG(ERR, p, "object %p is none of this pool: put by %s at %s%s", object,
			caller_lcore_text(by, lcore), caller_place_text(by, place),
			way_text(by, way));
}

void
guard_log_fault(struct guard_pool *p, const char *call, uint32_t cause)
{
	const struct cause_text text = text_of_cause(
		cause, "memory of the library was overwritten: see what writes beyond its own");

	if (__atomic_exchange_n(&p->is_fault_told, 1, __ATOMIC_RELAXED))
		return;
	LOG(ERR, p, "a %s was refused: %" PRIu32 ", %s: %s", call, cause, text.name, text.advice);
}

void
guard_log_cache(const struct rte_mempool *mp)
{
	rte_log(RTE_LOG_WARNING, RTE_LOGTYPE_MEMPOOL,
		"mbufpool_guard: pool %s: it has a cache of %" PRIu32 " above this handler: what is "
		"freed twice into that isn't seen before it comes here; make the pool with a cache of "
		"0, as this handler has caches of its own\n",
		mp->name, mp->cache_size);
}

void
guard_log_wish(const char *name, const char *wish, unsigned int most)
{
	rte_log(RTE_LOG_WARNING, RTE_LOGTYPE_MEMPOOL,
		"mbufpool_guard: %s=%s is no number of 0 to %u, and isn't used\n", name, wish, most);
}

void
guard_log_size(const struct rte_mempool *mp)
{
	rte_log(RTE_LOG_ERR, RTE_LOGTYPE_MEMPOOL,
		"mbufpool_guard: pool %s: %" PRIu32 " objects are more than a pool can have\n", mp->name,
		mp->size);
}

void
guard_log_waiting(const struct rte_mempool *mp, unsigned long wish, uint32_t waiting)
{
	rte_log(RTE_LOG_WARNING, RTE_LOGTYPE_MEMPOOL,
		"mbufpool_guard: pool %s: a quarantine of %" PRIu32 " objects for each lcore and not %lu, "
		"as all lcores' together may have half of %" PRIu32 "\n",
		mp->name, waiting, wish, mp->size);
}

void
guard_log_ways(void)
{
	static int is_told;

	if (!__atomic_exchange_n(&is_told, 1, __ATOMIC_RELAXED))
		rte_log(RTE_LOG_WARNING, RTE_LOGTYPE_MEMPOOL,
			"mbufpool_guard: more than %" PRIu32 " places in the code get and put, or near it: "
			"of some only the lcore is told\n",
			MAX_WAYS - 1);
}
