/* guard_report.c - what is out of a mempool on the handler "mbufpool_guard", by who got it: as text,
 * and as a telemetry command. */
#include <errno.h>
#include <inttypes.h>
#include <pthread.h>
#include <stdlib.h>
#include <string.h>

#include <rte_eal.h>
#include <rte_telemetry.h>

#include "guard_pool.h"
#include "mempool_guard.h"
#include "releases.h"
#include "tallies.h"

/* How much is out, and by whom. */
struct tallies {
	uint32_t out, count;
	struct tally *all;
};

/* ---- all pools ---- */

static pthread_mutex_t list_lock = PTHREAD_MUTEX_INITIALIZER;
static struct guard_pool *first_pool;

void
guard_list_add(struct guard_pool *p)
{
	pthread_mutex_lock(&list_lock);
	p->next = first_pool;
	first_pool = p;
	pthread_mutex_unlock(&list_lock);
}

void
guard_list_remove(struct guard_pool *p)
{
	struct guard_pool **at = &first_pool;

	pthread_mutex_lock(&list_lock);
	while (*at != p)
		at = &(*at)->next;
	*at = p->next;
	pthread_mutex_unlock(&list_lock);
}

static struct guard_pool *
pool_of(const struct rte_mempool *mp)
{
	if (strcmp(rte_mempool_get_ops(mp->ops_index)->name, MBUFPOOL_GUARD_OPS) != 0 ||
		rte_eal_process_type() != RTE_PROC_PRIMARY)
		return NULL;
	return mp->pool_data;
}

/* ---- what is out ---- */

/* Who got an element that has an object and is out, or 0. */
static caller
who_has(const struct guard_pool *p, uint32_t element)
{
	struct past past = { .both = __atomic_load_n(&p->pasts[element].both, __ATOMIC_RELAXED) };

	return past.put == 0 && p->objects[element] != NULL ? past.got : 0;
}

/* Writes who got what is out, one behind the other, and answers how many these are. */
static uint32_t
callers_of(struct guard_pool *p, caller *by)
{
	uint32_t element, out = 0;
	caller has;

	for (element = 0; element < p->places.next; element++) {
		has = who_has(p, element);
		if (has != 0)
			by[out++] = has;
	}
	return out;
}

/* Counts what is out. The tallies are freed by whoever asks. */
static int
count_out(struct guard_pool *p, struct tallies *t)
{
	caller *by = malloc(RTE_MAX(p->known, 1u) * sizeof(*by));

	memset(t, 0, sizeof(*t));
	if (by == NULL)
		return -ENOMEM;
	t->out = callers_of(p, by);
	t->all = calloc(RTE_MAX(t->out, 1u), sizeof(*t->all));
	if (t->all != NULL)
		t->count = tally_up(by, t->out, t->all);
	free(by);
	return t->all != NULL ? 0 : -ENOMEM;
}

/* Writes how many puts were found late to have been too many, where there are any. */
static const char *
late_text(const struct guard_pool *p, char *text)
{
	uint64_t late = __atomic_load_n(&p->late, __ATOMIC_RELAXED);

	text[0] = 0;
	if (late != 0)
		snprintf(text, CALL_TEXT, ", %" PRIu64 " were found late", late);
	return text;
}

int
mbufpool_guard_report(FILE *out, const struct rte_mempool *mp)
{
	struct guard_pool *p = pool_of(mp);
	char late[CALL_TEXT];
	struct tallies t;

	if (p == NULL)
		return -EINVAL;
	guard_tell_shared(p);
	if (count_out(p, &t) != 0) {
		fprintf(out, "mbufpool_guard: pool %s: no memory for a report of %" PRIu32 " objects\n",
			mp->name, p->known);
		return -ENOMEM;
	}
	fprintf(out,
		"mbufpool_guard: pool %s: %" PRIu32 " of %" PRIu32 " objects are out, %" PRIu64
		" puts were refused%s\n",
		mp->name, t.out, p->known, __atomic_load_n(&p->refused, __ATOMIC_RELAXED),
		late_text(p, late));
	tallies_write(out, t.all, t.count);
	free(t.all);
	return report_end(out);
}

int
mbufpool_guard_list(FILE *out, const struct rte_mempool *mp, unsigned int most)
{
	struct guard_pool *p = pool_of(mp);
	char lcore[CALL_TEXT], place[PLACE_TEXT];
	uint32_t element;
	caller by;

	if (p == NULL)
		return -EINVAL;
	for (element = 0; element < p->places.next && most > 0; element++) {
		by = who_has(p, element);
		if (by == 0)
			continue;
		fprintf(out, "element %" PRIu32 "  %p  %s  %s\n", p->numbers[element], p->objects[element],
			caller_lcore_text(by, lcore), caller_place_text(by, place));
		most--;
	}
	return report_end(out);
}

int
mbufpool_guard_in_pool(const struct rte_mempool *mp, void **objects, unsigned int n)
{
	struct guard_pool *p = pool_of(mp);
	uint32_t element, found = 0;

	if (p == NULL)
		return -EINVAL;
	for (element = 0; element < p->places.next; element++) {
		if (p->objects[element] == NULL || who_has(p, element) != 0)
			continue;
		if (found < n)
			objects[found] = p->objects[element];
		found++;
	}
	return found;
}

/* ---- telemetry ---- */

static int
tell_pools(struct rte_tel_data *data)
{
	struct guard_pool *p;

	rte_tel_data_start_array(data, RTE_TEL_STRING_VAL);
	for (p = first_pool; p != NULL; p = p->next)
		rte_tel_data_add_array_string(data, p->mp->name);
	return 0;
}

static int
tell_pool(struct guard_pool *p, struct rte_tel_data *data)
{
	struct rte_tel_data *lines = rte_tel_data_alloc();
	struct tallies t;
	uint64_t rest;

	if (lines == NULL)
		return -ENOMEM;
	guard_tell_shared(p);
	if (count_out(p, &t) != 0) {
		rte_tel_data_free(lines);
		return -ENOMEM;
	}
	rest = tallies_tell(t.all, t.count, lines);
	rte_tel_data_start_dict(data);
	rte_tel_data_add_dict_string(data, "pool", p->mp->name);
	rte_tel_data_add_dict_uint(data, "objects", p->known);
	rte_tel_data_add_dict_uint(data, "out", t.out);
	rte_tel_data_add_dict_uint(
		data, "refused", __atomic_load_n(&p->refused, __ATOMIC_RELAXED));
	rte_tel_data_add_dict_uint(data, "late", __atomic_load_n(&p->late, __ATOMIC_RELAXED));
	rte_tel_data_add_dict_container(data, "got_by", lines, 0);
	rte_tel_data_add_dict_uint(data, "got_by_others", rest);
	free(t.all);
	return 0;
}

/* The list is locked, so that no pool ends meanwhile. */
static int
tell_out(const char *command, const char *name, struct rte_tel_data *data)
{
	struct guard_pool *p;
	int ret;

	RTE_SET_USED(command);
	pthread_mutex_lock(&list_lock);
	for (p = first_pool; p != NULL && name != NULL; p = p->next)
		if (strcmp(p->mp->name, name) == 0)
			break;
	if (name == NULL || *name == 0)
		ret = tell_pools(data);
	else
		ret = p == NULL ? -EINVAL : tell_pool(p, data);
	pthread_mutex_unlock(&list_lock);
	return ret;
}

RTE_INIT(register_telemetry)
{
	rte_telemetry_register_cmd("/mbufpool/out", tell_out,
		"What is out of a mempool on mbufpool_guard, by who got it. Parameter: its name; "
		"without, the names of these mempools");
}
