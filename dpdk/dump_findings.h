/* dump_findings.h - what `mbufpool audit` says of several snapshots of one pool alike. */
#ifndef DUMP_FINDINGS_H
#define DUMP_FINDINGS_H
#include <stddef.h>
#include <stdio.h>

/* A line, and how much of it says what it is of: behind that stands where, which may be another place
 * in each snapshot. */
struct line {
	char *text;
	size_t key;
};

struct lines {
	struct line *all;
	size_t count, room;
};

/* Faults are those of all snapshots so far, with the places of the last one; packets those of all
 * snapshots without a fault. */
struct findings {
	struct lines faults, packets;
	unsigned int snapshots, faulty;
	char *said; /* what the program said in place of an audit, or NULL */
};

/* Audits one more snapshot, by `PROGRAM audit FILE --all`, and where that has no fault by `PROGRAM audit
 * FILE`. Answers 0 or -errno: -ENOENT where there is no such program, -ENOTSUP where it doesn't know
 * `--all`, and -EPROTO where it said neither which faults there are nor a statement. */
int findings_add(struct findings *f, const char *program, const char *file);

/* Whether each of the snapshots has a fault, be it another one each time. */
int findings_are_faulty(const struct findings *f);

/* Writes how many snapshots have a fault, and each one that is in all of them. */
void findings_write_faults(FILE *out, const struct findings *f, const char *pool);

/* The packets that are in all snapshots without a fault, `segs S len L: ..` each; none where there are
 * fewer than two such snapshots. */
struct lines findings_packets(const struct findings *f);

void findings_end(struct findings *f);
#endif
