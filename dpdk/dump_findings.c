/* dump_findings.c - see dump_findings.h. */
#ifndef _GNU_SOURCE
#define _GNU_SOURCE
#endif
#include <errno.h>
#include <fcntl.h>
#include <spawn.h>
#include <stdint.h>
#include <stdlib.h>
#include <string.h>
#include <sys/wait.h>
#include <unistd.h>

#include "dump_findings.h"

#define WRONG_USE 2 /* the status of a program that doesn't know a word of its command line */

extern char **environ;

/* ---- lines, and what is in two lists of them ---- */

static int
by_key(const void *a, const void *b)
{
	const struct line *p = a, *q = b;
	int order = memcmp(p->text, q->text, p->key < q->key ? p->key : q->key);

	return order != 0 ? order : (p->key > q->key) - (p->key < q->key);
}

static int
add_line(struct lines *lines, const char *text, size_t key)
{
	size_t room = lines->room;
	struct line *all;
	char *copy;

	if (lines->count == room) {
		room = 2 * room + 64;
		all = realloc(lines->all, room * sizeof(*all));
		if (all == NULL)
			return -ENOMEM;
		lines->all = all;
		lines->room = room;
	}
	copy = strdup(text);
	if (copy == NULL)
		return -ENOMEM;
	lines->all[lines->count++] = (struct line){copy, key};
	return 0;
}

static void
free_lines(struct lines *lines)
{
	size_t k;

	for (k = 0; k < lines->count; k++)
		free(lines->all[k].text);
	free(lines->all);
	memset(lines, 0, sizeof(*lines));
}

/* Of what is found, leaves what was known, in the order of what is found; where nothing was looked at
 * before, all of it. What is found is known then, and was taken. */
static void
keep_common(struct lines *known, struct lines *found, int is_first)
{
	size_t k, kept = 0;

	if (!is_first && known->count > 0)
		qsort(known->all, known->count, sizeof(*known->all), by_key);
	for (k = 0; !is_first && k < found->count; k++)
		if (known->count > 0 && bsearch(&found->all[k], known->all, known->count,
						sizeof(*known->all), by_key) != NULL)
			found->all[kept++] = found->all[k];
		else
			free(found->all[k].text);
	found->count = is_first ? found->count : kept;
	free_lines(known);
	*known = *found;
	memset(found, 0, sizeof(*found));
}

/* ---- what an audit prints ---- */

/* An audit, and what was read of what it printed. */
struct audit {
	struct lines faults, packets;
	size_t told;	  /* how many faults it says that there are */
	int has_told;	  /* it does say so */
	int is_refused;	  /* the text is no snapshot: one line says why */
	int is_short;	  /* it had too little memory */
	int is_statement; /* it wrote where each mbuf is */
	int status;
	char *other; /* the last line that is none of these */
};

static int
begins(const char *line, const char *word)
{
	return strncmp(line, word, strlen(word)) == 0;
}

/* A packet without its slot, which is another each time. */
static const char *
behind_slot(const char *line)
{
	const char *segments = strstr(line, " segs ");

	return segments != NULL ? segments + 1 : line;
}

/* Whether a line is `143 faults`, and how many those are. */
static int
read_number(const char *line, size_t *number)
{
	char *end;

	if (*line < '0' || *line > '9')
		return 0;
	*number = strtoul(line, &end, 10);
	return strcmp(end, " faults") == 0 || strcmp(end, " fault") == 0;
}

static int
keep_other(struct audit *a, const char *line)
{
	free(a->other);
	a->other = strdup(line);
	return a->other != NULL ? 0 : -ENOMEM;
}

/* Of a fault, its number, its name and its element say which one it is; of a text that is no snapshot,
 * the member that is named. */
static int
read_line(struct audit *a, const char *line)
{
	if (begins(line, "fault 2 ")) {
		a->is_short = 1;
		return 0;
	}
	if (begins(line, "fault "))
		return add_line(&a->faults, line, strcspn(line, ":"));
	if (begins(line, "snapshot")) {
		a->is_refused = 1;
		return add_line(&a->faults, line, strcspn(line, "[:"));
	}
	if (begins(line, "packet "))
		return add_line(&a->packets, behind_slot(line), strlen(behind_slot(line)));
	if (begins(line, "population "))
		a->is_statement = 1;
	else if (read_number(line, &a->told))
		a->has_told = 1;
	else if (!a->is_statement)
		return keep_other(a, line);
	return 0;
}

static int
read_lines(struct audit *a, FILE *from)
{
	char *line = NULL;
	size_t room = 0;
	int ret = 0;

	while (ret == 0 && getline(&line, &room, from) > 0) {
		line[strcspn(line, "\n")] = 0;
		ret = read_line(a, line);
	}
	free(line);
	return ret;
}

/* Begins `PROGRAM audit FILE`, with one more word or NULL, and answers what it prints, or NULL with
 * errno. */
static FILE *
begin_audit(const char *program, const char *file, const char *word, pid_t *pid)
{
	char *argv[] = {(char *)(uintptr_t)program, (char *)(uintptr_t) "audit",
			(char *)(uintptr_t)file, (char *)(uintptr_t)word, NULL};
	posix_spawn_file_actions_t actions;
	FILE *from = NULL;
	int ends[2];

	if (pipe2(ends, O_CLOEXEC) != 0)
		return NULL;
	posix_spawn_file_actions_init(&actions);
	posix_spawn_file_actions_adddup2(&actions, ends[1], STDOUT_FILENO);
	/* (what is no snapshot is told on standard error) */
	posix_spawn_file_actions_adddup2(&actions, ends[1], STDERR_FILENO);
	errno = posix_spawnp(pid, program, &actions, NULL, argv, environ);
	if (errno == 0)
		from = fdopen(ends[0], "r");
	posix_spawn_file_actions_destroy(&actions);
	close(ends[1]);
	if (from == NULL)
		close(ends[0]);
	return from;
}

static void
end_audit(struct audit *a)
{
	free_lines(&a->faults);
	free_lines(&a->packets);
	free(a->other);
	memset(a, 0, sizeof(*a));
}

static int
run_audit(struct audit *a, const char *program, const char *file, const char *word)
{
	FILE *from;
	int ret, status = 0;
	pid_t pid;

	end_audit(a);
	from = begin_audit(program, file, word, &pid);
	if (from == NULL)
		return -errno;
	ret = read_lines(a, from);
	fclose(from);
	while (waitpid(pid, &status, 0) < 0 && errno == EINTR)
		;
	a->status = WIFEXITED(status) ? WEXITSTATUS(status) : -1;
	return ret != 0 ? ret : a->is_short ? -ENOMEM : 0;
}

/* ---- audits of one snapshot ---- */

/* Reads each fault of a snapshot. */
static int
find_faults(struct audit *a, const char *program, const char *file)
{
	int ret = run_audit(a, program, file, "--all");

	if (ret != 0)
		return ret;
	if (a->status == WRONG_USE)
		return -ENOTSUP;
	if (a->is_refused)
		return a->status == 1 ? 0 : -EPROTO;
	if (!a->has_told || a->told != a->faults.count || a->status != (a->told > 0))
		return -EPROTO;
	return 0;
}

/* Reads the packets of a snapshot without a fault. */
static int
find_packets(struct audit *a, const char *program, const char *file)
{
	int ret = run_audit(a, program, file, NULL);

	return ret != 0 ? ret : a->is_statement && a->status == 0 ? 0 : -EPROTO;
}

int
findings_add(struct findings *f, const char *program, const char *file)
{
	struct audit a = {.status = 0};
	int ret = find_faults(&a, program, file), is_faulty = a.faults.count > 0;

	if (ret == 0) {
		keep_common(&f->faults, &a.faults, f->snapshots == 0);
		ret = is_faulty ? 0 : find_packets(&a, program, file);
	}
	if (ret == 0) {
		if (!is_faulty)
			keep_common(&f->packets, &a.packets, f->snapshots == f->faulty);
		f->faulty += is_faulty;
		f->snapshots++;
	} else if (ret == -EPROTO) {
		f->said = a.other;
		a.other = NULL;
	}
	end_audit(&a);
	return ret;
}

/* ---- what is said ---- */

int
findings_are_faulty(const struct findings *f)
{
	return f->snapshots > 0 && f->faulty == f->snapshots;
}

void
findings_write_faults(FILE *out, const struct findings *f, const char *pool)
{
	size_t k;

	fprintf(out, "%s: %u snapshots, %u of them with a fault, and %zu in all of them\n", pool,
		f->snapshots, f->faulty, f->faults.count);
	for (k = 0; k < f->faults.count; k++)
		fprintf(out, "in all: %s\n", f->faults.all[k].text);
}

struct lines
findings_packets(const struct findings *f)
{
	static const struct lines none;

	return f->snapshots - f->faulty > 1 ? f->packets : none;
}

void
findings_end(struct findings *f)
{
	free_lines(&f->faults);
	free_lines(&f->packets);
	free(f->said);
	memset(f, 0, sizeof(*f));
}
