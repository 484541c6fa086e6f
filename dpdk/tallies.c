/* tallies.c - what is out of a mempool by who got it: counted, and as text. */
#include <errno.h>
#include <inttypes.h>
#include <stdlib.h>

#include "tallies.h"

#define TELEMETRY_LINES 64 /* so that an answer fits into what telemetry sends */

static int
by_caller(const void *a, const void *b)
{
	caller x = *(const caller *)a, y = *(const caller *)b;

	return (x > y) - (x < y);
}

static int
by_count(const void *a, const void *b)
{
	const struct tally *x = a, *y = b;

	if (x->objects != y->objects)
		return x->objects < y->objects ? 1 : -1;
	return by_caller(&x->by, &y->by);
}

uint32_t
tally_up(caller *by, uint32_t n, struct tally *all)
{
	uint32_t count = 0, i;

	qsort(by, n, sizeof(*by), by_caller);
	for (i = 0; i < n; i++) {
		if (i == 0 || by[i] != by[i - 1])
			all[count++].by = by[i];
		all[count - 1].objects++;
	}
	qsort(all, count, sizeof(*all), by_count);
	return count;
}

void
tallies_write(FILE *out, const struct tally *all, uint32_t n)
{
	char lcore[CALL_TEXT], place[PLACE_TEXT];
	uint32_t i;

	for (i = 0; i < n; i++)
		fprintf(out, "%7" PRIu32 "  %s  %s\n", all[i].objects, caller_lcore_text(all[i].by, lcore),
			caller_place_text(all[i].by, place));
}

uint64_t
tallies_tell(const struct tally *all, uint32_t n, struct rte_tel_data *lines)
{
	char line[CALL_TEXT + PLACE_TEXT + 32], lcore[CALL_TEXT], place[PLACE_TEXT];
	uint64_t rest = 0;
	uint32_t i;

	rte_tel_data_start_array(lines, RTE_TEL_STRING_VAL);
	for (i = 0; i < n; i++) {
		if (i >= TELEMETRY_LINES) {
			rest += all[i].objects;
			continue;
		}
		snprintf(line, sizeof(line), "%" PRIu32 "  %s  %s", all[i].objects,
			caller_lcore_text(all[i].by, lcore), caller_place_text(all[i].by, place));
		rte_tel_data_add_array_string(lines, line);
	}
	return rest;
}

int
report_end(FILE *out)
{
	return fflush(out) == 0 && !ferror(out) ? 0 : -EIO;
}
