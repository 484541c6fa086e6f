/* watch_report.c - what the handler "mbufpool_watch" has seen of a mempool: as text, and as a telemetry
 * command. */
#include <errno.h>
#include <inttypes.h>
#include <stdlib.h>
#include <string.h>

#include <rte_cycles.h>
#include <rte_eal.h>
#include <rte_telemetry.h>

#include "mempool_watch.h"
#include "releases.h"
#include "watch.h"

#define PORTION 128 /* watched mbufs that are looked at under one lock */

/* ---- counts ---- */

static uint64_t
sum(const struct turn *turns, size_t count)
{
	uint64_t n = 0;
	unsigned int i;

	for (i = 0; i <= RTE_MAX_LCORE; i++)
		n += turn_load((const uint64_t *)((const char *)&turns[i] + count));
	return n;
}

uint64_t
watch_given(const struct watch *s, int by_ports)
{
	return sum(by_ports ? s->ports : s->gets, offsetof(struct turn, given));
}

static uint64_t
dry(const struct watch *s)
{
	return sum(s->gets, offsetof(struct turn, dry)) + sum(s->ports, offsetof(struct turn, dry));
}

static uint64_t
left_alone(const struct watch *s)
{
	return sum(s->ports, offsetof(struct turn, left_alone));
}

uint64_t
watch_seen(const struct watch *s)
{
	uint64_t seen = 0;
	unsigned int i;

	for (i = 0; i <= RTE_MAX_LCORE; i++)
		seen += turn_load(&s->gets[i].drawn) - turn_until(&s->gets[i]);
	return seen;
}

/* ---- what is out ---- */

/* Notes the watched mbufs of an lcore's cache: they were freed, though nothing of it came here. (read while
 * the lcore changes it: one more or less may be noted) */
__attribute__((no_sanitize("thread"))) static void
note_cached_of(const struct watch *s, const struct rte_mempool_cache *cache, uint8_t *is_cached)
{
	uint32_t n = RTE_MIN(*(const volatile uint32_t *)&cache->len, RTE_DIM(cache->objs)), i, number;

	for (i = 0; i < n; i++) {
		number = watch_number(s, *(void *const volatile *)&cache->objs[i]);
		if (number < s->count)
			is_cached[number] = 1;
	}
}

static void
note_cached(const struct watch *s, uint8_t *is_cached)
{
	unsigned int lcore;

	for (lcore = 0; s->mp->cache_size != 0 && lcore < RTE_MAX_LCORE; lcore++)
		note_cached_of(s, &s->mp->local_cache[lcore], is_cached);
}

/* Writes who got what is out since `before` or longer, and answers how many these are. */
static uint32_t
callers_of(struct watch *s, uint64_t before, const uint8_t *is_cached, caller *by)
{
	uint32_t from, i, end, n = 0;

	for (from = 0; from < s->count; from = end) {
		end = RTE_MIN(from + PORTION, s->count);
		rte_spinlock_lock(&s->lock);
		for (i = from; i < end; i++)
			if (s->all[i].is_out && s->all[i].since <= before && !is_cached[i])
				by[n++] = s->all[i].past.got;
		rte_spinlock_unlock(&s->lock);
	}
	return n;
}

struct tally *
watch_count_out(struct watch *s, uint64_t before, uint32_t *nb_tallies, uint32_t *out)
{
	struct tally *all = calloc(s->count + 1, sizeof(*all));
	caller *by = calloc(s->count + 1, sizeof(*by));
	uint8_t *is_cached = calloc(s->count + 1, 1);

	if (all != NULL && by != NULL && is_cached != NULL) {
		note_cached(s, is_cached);
		*out = callers_of(s, before, is_cached, by);
		*nb_tallies = tally_up(by, *out, all);
	} else {
		free(all);
		all = NULL;
	}
	free(by);
	free(is_cached);
	return all;
}

/* After how long an mbuf counts as old: as the environment asks, or after a minute. */
static uint64_t
old_seconds(const struct watch *s)
{
	return s->wishes.old != 0 ? s->wishes.old : 60;
}

/* How many are out for so long. */
static uint32_t
count_old(struct watch *s)
{
	const uint64_t cycles = old_seconds(s) * rte_get_tsc_hz(), now = rte_rdtsc();
	uint32_t n = 0, old = 0;

	free(now > cycles ? watch_count_out(s, now - cycles, &n, &old) : NULL);
	return old;
}

/* ---- text ---- */

static struct watch *
watch_of(const struct rte_mempool *mp)
{
	if (strcmp(rte_mempool_get_ops(mp->ops_index)->name, MBUFPOOL_WATCH_OPS) != 0 ||
		rte_eal_process_type() != RTE_PROC_PRIMARY)
		return NULL;
	return mp->pool_data;
}

static void
write_counts(FILE *out, struct watch *s, uint32_t nb_out)
{
	fprintf(out,
		"mbufpool_watch: pool %s: %" PRIu32 " mbufs are watched, one in %" PRIu64 ", over %s: %" PRIu32
		" are out, %" PRIu32 " of them for more than %" PRIu64 " s\n",
		s->mp->name, s->count, s->wishes.every, s->wishes.over, nb_out, count_old(s), old_seconds(s));
	fprintf(out,
		"given %" PRIu64 " by refills, %" PRIu64 " by ports, %" PRIu64 " as the last ones; %" PRIu64
		" times dry; %" PRIu64 " packets left alone\n",
		watch_given(s, 0), watch_given(s, 1), turn_load(&s->lasts), dry(s), left_alone(s));
	fprintf(out, "%" PRIu64 " puts were refused, %" PRIu64 " mbufs were written after their free\n",
		turn_load(&s->refused), turn_load(&s->written));
}

int
mbufpool_watch_report(FILE *out, const struct rte_mempool *mp)
{
	struct watch *s = watch_of(mp);
	struct tally *all;
	uint32_t n, nb_out;

	if (s == NULL)
		return -EINVAL;
	all = watch_count_out(s, UINT64_MAX, &n, &nb_out);
	if (all == NULL)
		return -ENOMEM;
	write_counts(out, s, nb_out);
	tallies_write(out, all, n);
	free(all);
	return report_end(out);
}

int
mbufpool_watch_list(FILE *out, const struct rte_mempool *mp, unsigned int most)
{
	char lcore[CALL_TEXT], place[PLACE_TEXT];
	struct watch *s = watch_of(mp);
	struct watched w;
	uint32_t number;

	if (s == NULL)
		return -EINVAL;
	for (number = 0; number < s->count && most > 0; number++) {
		rte_spinlock_lock(&s->lock);
		w = s->all[number];
		rte_spinlock_unlock(&s->lock);
		if (!w.is_out)
			continue;
		fprintf(out, "mbuf %" PRIu32 "  %p  %.1f s  %s  %s\n", number, (void *)w.mbuf,
			(double)(rte_rdtsc() - w.since) / rte_get_tsc_hz(),
			caller_lcore_text(w.past.got, lcore), caller_place_text(w.past.got, place));
		most--;
	}
	return report_end(out);
}

/* ---- telemetry ---- */

static int
tell_pools(struct rte_tel_data *data)
{
	struct watch *s;

	rte_tel_data_start_array(data, RTE_TEL_STRING_VAL);
	for (s = watch_list_first(); s != NULL; s = s->next)
		rte_tel_data_add_array_string(data, s->mp->name);
	return 0;
}

static int
tell_pool(struct watch *s, struct rte_tel_data *data)
{
	struct rte_tel_data *lines = rte_tel_data_alloc();
	uint32_t n = 0, out = 0;
	struct tally *all = lines != NULL ? watch_count_out(s, UINT64_MAX, &n, &out) : NULL;

	if (all == NULL) {
		rte_tel_data_free(lines);
		return -ENOMEM;
	}
	tallies_tell(all, n, lines);
	free(all);
	rte_tel_data_start_dict(data);
	rte_tel_data_add_dict_string(data, "pool", s->mp->name);
	rte_tel_data_add_dict_string(data, "over", s->wishes.over);
	rte_tel_data_add_dict_uint(data, "watched", s->count);
	rte_tel_data_add_dict_uint(data, "one_in", s->wishes.every);
	rte_tel_data_add_dict_uint(data, "out", out);
	rte_tel_data_add_dict_uint(data, "old", count_old(s));
	rte_tel_data_add_dict_uint(data, "given_by_refills", watch_given(s, 0));
	rte_tel_data_add_dict_uint(data, "given_by_ports", watch_given(s, 1));
	rte_tel_data_add_dict_uint(data, "given_as_last", turn_load(&s->lasts));
	rte_tel_data_add_dict_uint(data, "dry", dry(s));
	rte_tel_data_add_dict_uint(data, "left_alone", left_alone(s));
	rte_tel_data_add_dict_uint(data, "refused", turn_load(&s->refused));
	rte_tel_data_add_dict_uint(data, "written", turn_load(&s->written));
	rte_tel_data_add_dict_container(data, "got_by", lines, 0);
	return 0;
}

/* The list is locked, so that no pool ends meanwhile. */
static int
tell(const char *command, const char *name, struct rte_tel_data *data)
{
	struct watch *s;
	int ret;

	RTE_SET_USED(command);
	watch_list_lock();
	for (s = watch_list_first(); s != NULL && name != NULL; s = s->next)
		if (strcmp(s->mp->name, name) == 0)
			break;
	if (name == NULL || *name == 0)
		ret = tell_pools(data);
	else
		ret = s == NULL ? -EINVAL : tell_pool(s, data);
	watch_list_unlock();
	return ret;
}

RTE_INIT(register_watch_telemetry)
{
	rte_telemetry_register_cmd("/mbufpool/watch", tell,
		"What mbufpool_watch has seen of a mempool. Parameter: its name; without, the names of "
		"these mempools");
}
