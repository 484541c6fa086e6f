/* dump_alike.h - packets in use, grouped by what they have alike: how many segments, their length, the
 * port, and how their data begins. */
#ifndef DUMP_ALIKE_H
#define DUMP_ALIKE_H
#include <stdint.h>
#include <stdio.h>

#include "dump_findings.h"
#include "dump_view.h"

#define MOST_DATA 16 /* bytes that are looked at */

/* What the first segment of a packet says, and the first bytes of its data. */
struct look {
	uint32_t elem;
	uint16_t port;
	uint8_t is_known; /* whether the data could be read */
	uint8_t nb_data;
	uint8_t data[MOST_DATA];
};

/* Of one mempool, by element. */
struct looks {
	struct look *all;
	size_t count;
};

/* Looks at each mbuf that is in use in a view that was filled. One that says something else by now is
 * another packet's, and left out. Answers 0 or -ENOMEM. */
int looks_take(struct looks *looks, const struct view *v);

/* Writes a line for each group of packets, `segs S len L: ..` each, the largest group first: how many
 * they are, what they have alike, and the addresses of the first mbufs of three. Answers 0 or -ENOMEM. */
int looks_write(FILE *out, const struct lines *packets, const struct looks *looks,
		const struct view *v);

void looks_end(struct looks *looks);
#endif
