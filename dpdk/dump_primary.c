/* dump_primary.c - see dump_primary.h. */
#ifndef _GNU_SOURCE
#define _GNU_SOURCE
#endif
#include <ctype.h>
#include <dirent.h>
#include <errno.h>
#include <fcntl.h>
#include <glob.h>
#include <limits.h>
#include <poll.h>
#include <signal.h>
#include <stdio.h>
#include <stdlib.h>
#include <string.h>
#include <sys/resource.h>
#include <sys/wait.h>
#include <time.h>
#include <unistd.h>

#include "dump_primary.h"

#define FOLDER (PATH_MAX / 2)
#define LONGEST 5000	 /* milliseconds that the process stands at most */
#define PATIENCE 3000000 /* microseconds until each of its threads stands */
#define BETWEEN_LOOKS 50 /* microseconds */

/* ---- who it is ---- */

/* Where EAL has what primaries share, a folder for each prefix. */
static void
runtime_folder(char *path)
{
	const char *at = getenv("RUNTIME_DIRECTORY");

	if (at == NULL)
		at = getuid() == 0 ? "/var/run" : getenv("XDG_RUNTIME_DIR");
	snprintf(path, FOLDER, "%s/dpdk", at != NULL ? at : "/tmp");
}

static void
runtime_file(char *path, const char *prefix, const char *name)
{
	char folder[FOLDER];

	runtime_folder(folder);
	snprintf(path, PATH_MAX, "%s/%.*s/%s", folder, NAME_MAX, prefix, name);
}

/* Whether a process has huge pages of files that nobody can open any more. */
static int
has_unlinked(pid_t pid, const char *prefix)
{
	char path[64], name[NAME_MAX + 8], *line = NULL;
	size_t room = 0;
	int is_one = 0;
	FILE *f;

	snprintf(path, sizeof(path), "/proc/%ld/maps", (long)pid);
	snprintf(name, sizeof(name), "/%.*smap_", NAME_MAX, prefix);
	f = fopen(path, "r");
	while (f != NULL && !is_one && getline(&line, &room, f) > 0)
		is_one = strstr(line, name) != NULL && strstr(line, " (deleted)") != NULL;
	if (f != NULL)
		fclose(f);
	free(line);
	return is_one;
}

const char *
primary_why_not(pid_t pid, const char *prefix)
{
	char path[PATH_MAX];

	runtime_file(path, prefix, "hugepage_info");
	if (access(path, F_OK) != 0)
		return "it has no huge pages (--no-huge)";
	if (pid > 0 && has_unlinked(pid, prefix))
		return "it has unlinked the files of its huge pages (--huge-unlink)";
	return NULL;
}

void
primary_forget_me(const char *prefix)
{
	char pattern[PATH_MAX], name[64];
	glob_t found;
	size_t k;

	snprintf(name, sizeof(name), "mp_socket_%ld_*", (long)getpid());
	runtime_file(pattern, prefix, name);
	if (glob(pattern, 0, NULL, &found) != 0)
		return;
	for (k = 0; k < found.gl_pathc; k++)
		unlink(found.gl_pathv[k]);
	globfree(&found);
}

pid_t
primary_find(const char *prefix)
{
	struct flock lock = {.l_type = F_WRLCK, .l_whence = SEEK_SET};
	char path[PATH_MAX];
	int fd, ret;

	runtime_file(path, prefix, "config");
	fd = open(path, O_RDONLY | O_CLOEXEC);
	if (fd < 0)
		return 0;
	ret = fcntl(fd, F_GETLK, &lock);
	close(fd);
	if (ret != 0 || lock.l_type == F_UNLCK)
		return 0;
	return lock.l_pid > 0 ? lock.l_pid : -1;
}

unsigned int
primary_prefixes(char *text, size_t room)
{
	char folder[FOLDER];
	unsigned int count = 0;
	struct dirent *entry;
	size_t used = 0;
	DIR *all;

	*text = 0;
	runtime_folder(folder);
	all = opendir(folder);
	while (all != NULL && (entry = readdir(all)) != NULL) {
		if (entry->d_name[0] == '.' || primary_find(entry->d_name) == 0)
			continue;
		if (used < room)
			used += snprintf(text + used, room - used, "%s%s", count == 0 ? "" : ", ",
					 entry->d_name);
		count++;
	}
	if (all != NULL)
		closedir(all);
	return count;
}

/* ---- how it is stopped ---- */

static pid_t watched, watcher;
static int to_watch = -1; /* what is written there: 'S' before a stop, 'C' once the process goes on */
static int was_stopped;	  /* by others */
static struct timespec since;

static long
microseconds_since(const struct timespec *from)
{
	struct timespec now;

	clock_gettime(CLOCK_MONOTONIC, &now);
	return (now.tv_sec - from->tv_sec) * 1000000 + (now.tv_nsec - from->tv_nsec) / 1000;
}

/* What the other process does: once what it reads from ends, or a stop lasts too long, the watched
 * process goes on. */
static void
watch(int from)
{
	struct pollfd told = {.fd = from, .events = POLLIN};
	int is_stopped = 0, n;
	char what;

	for (;;) {
		n = poll(&told, 1, is_stopped ? LONGEST : -1);
		if (n < 0 && errno == EINTR)
			continue;
		if (n == 0) {
			kill(watched, SIGCONT);
			is_stopped = 0;
			continue;
		}
		if (read(from, &what, 1) != 1)
			break;
		is_stopped = what == 'S';
	}
	if (is_stopped)
		kill(watched, SIGCONT);
}

int
primary_watch(pid_t pid)
{
	static const int ignored[] = {SIGINT, SIGTERM, SIGHUP, SIGQUIT, SIGTSTP};
	int ends[2];
	pid_t child;
	size_t i;

	watched = pid;
	if (pipe2(ends, O_CLOEXEC) != 0)
		return -errno;
	child = fork();
	if (child < 0)
		return -errno;
	if (child == 0) {
		for (i = 0; i < sizeof(ignored) / sizeof(ignored[0]); i++)
			signal(ignored[i], SIG_IGN);
		setsid();
		close(ends[1]);
		watch(ends[0]);
		_exit(0);
	}
	close(ends[0]);
	watcher = child;
	to_watch = ends[1];
	signal(SIGPIPE, SIG_IGN);
	return 0;
}

void
primary_unwatch(void)
{
	if (to_watch < 0)
		return;
	close(to_watch);
	to_watch = -1;
	while (waitpid(watcher, NULL, 0) < 0 && errno == EINTR)
		;
}

/* The state of a thread, by its line in /proc, or 0 where it is gone. */
static char
state_of(const char *folder, const char *thread)
{
	char path[64 + NAME_MAX], line[512], *behind;
	size_t n;
	FILE *f;

	snprintf(path, sizeof(path), "%s/%s/stat", folder, thread);
	f = fopen(path, "r");
	if (f == NULL)
		return 0;
	n = fread(line, 1, sizeof(line) - 1, f);
	fclose(f);
	line[n] = 0;
	behind = strrchr(line, ')');
	return behind != NULL && behind[1] == ' ' ? behind[2] : 0;
}

/* Whether each thread stands, by a signal or a debugger. */
static int
stands(void)
{
	struct dirent *entry;
	char folder[64], state;
	int is_standing = 1;
	DIR *all;

	snprintf(folder, sizeof(folder), "/proc/%ld/task", (long)watched);
	all = opendir(folder);
	if (all == NULL)
		return 0;
	while (is_standing && (entry = readdir(all)) != NULL) {
		if (!isdigit((unsigned char)entry->d_name[0]))
			continue;
		state = state_of(folder, entry->d_name);
		is_standing = state == 'T' || state == 't' || state == 0;
	}
	closedir(all);
	return is_standing;
}

static int
tell(char what)
{
	return write(to_watch, &what, 1) == 1 ? 0 : -EPIPE;
}

int
primary_stop(void)
{
	int ret;

	was_stopped = stands();
	if (was_stopped)
		return 0;
	ret = tell('S');
	if (ret != 0)
		return ret;
	/* (where this process may, it isn't kept from its processor meanwhile) */
	setpriority(PRIO_PROCESS, 0, -20);
	clock_gettime(CLOCK_MONOTONIC, &since);
	if (kill(watched, SIGSTOP) != 0)
		return -errno;
	while (!stands()) {
		if (microseconds_since(&since) > PATIENCE) {
			primary_go_on();
			return -ETIMEDOUT;
		}
		usleep(BETWEEN_LOOKS);
	}
	return 0;
}

long
primary_go_on(void)
{
	long stood = microseconds_since(&since);
	int is_standing = stands();

	if (was_stopped)
		return is_standing ? 0 : -1;
	kill(watched, SIGCONT);
	setpriority(PRIO_PROCESS, 0, 0);
	tell('C');
	return is_standing ? stood + 1 : -1;
}
