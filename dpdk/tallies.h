/* tallies.h - what is out of a mempool by who got it: counted, and as text. */
#ifndef MBUFPOOL_TALLIES_H
#define MBUFPOOL_TALLIES_H
#include <stdint.h>
#include <stdio.h>

#include <rte_telemetry.h>

#include "call_places.h"

/* Objects that were got by one lcore at one place. */
struct tally {
	caller by;
	uint32_t objects;
};

/* Tallies callers, one for each object, and sorts them: most objects first, and of as many the least lcore.
 * `all` is zeroed and has room for as many tallies as callers. Answers how many there are. */
uint32_t tally_up(caller *by, uint32_t n, struct tally *all);

/* Writes a line for each: how many objects, the lcore, the place in the code. */
void tallies_write(FILE *out, const struct tally *all, uint32_t n);

/* The same as an array of telemetry, of as many lines as fit into an answer. Answers how many objects the
 * others have. */
uint64_t tallies_tell(const struct tally *all, uint32_t n, struct rte_tel_data *lines);

/* What ends a report: 0, or -EIO where it couldn't be written. */
int report_end(FILE *out);

#endif
