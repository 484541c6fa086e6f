/* mbufpool_dump.c - mbufpool-dump, a DPDK secondary process: snapshots of the mempools of a program as
 * it runs, for `mbufpool audit FILE`.
 *
 * It reads the memory that the primary shares, and calls no handler: to a secondary the primary's
 * ops_index says nothing, and what it stands for may be in a plugin that isn't here. EAL is linked in
 * where it can be, so that it comes without buses and drivers, and touches no device.
 *
 * First all is looked up and each file is opened; then the pools are copied, for which the primary may
 * be stopped, and nothing is called that takes a lock; then the copies are written. */
#ifndef _GNU_SOURCE
#define _GNU_SOURCE
#endif
#include <errno.h>
#include <getopt.h>
#include <inttypes.h>
#include <limits.h>
#include <sched.h>
#include <signal.h>
#include <stdarg.h>
#include <stdlib.h>
#include <string.h>
#include <sys/stat.h>
#include <time.h>
#include <unistd.h>

#include <rte_eal.h>
#include <rte_errno.h>
#include <rte_log.h>
#include <rte_service_component.h>
#include <rte_version.h>

#include "dump_alike.h"
#include "dump_findings.h"
#include "dump_handlers.h"
#include "dump_primary.h"
#include "dump_view.h"
#include "mbufpool.h"

#define NAME "mbufpool-dump"
#define FAILED 1
#define WRONG_USE 2
#define FOUND 3
#define MOST_TIMES 100
#define MOST_OPTIONS 64 /* of EAL, behind `--` */
#define FILE_NAME PATH_MAX

struct options {
	const char *prefix, *pool, *file, *folder, *audit;
	unsigned int times, every; /* how often, and how many milliseconds apart */
	int is_stop, is_each;
	char **eal;
	int nb_eal;
};

/* A pool that is dumped, and the files for it: FILE, and in FILE.workers whose caches there are. The
 * looks are of its last snapshot. */
struct job {
	struct view view;
	int copied; /* 0, or why it couldn't be */
	struct looks looks;
	char name[RTE_MEMPOOL_NAMESIZE];
	char file[FILE_NAME];
	FILE *out, *workers;
};

struct jobs {
	struct job *all;
	unsigned int count;
};

static struct options o = {.prefix = "rte", .times = 1, .every = 1000};
static struct handlers handlers; /* those of the program, by ops_index */
static volatile sig_atomic_t ended_by;

static const char help[] =
	"mbufpool-dump [OPTION ..] [-- EAL-OPTION ..]\n"
	"    lists the mempools of the DPDK program that runs\n"
	"mbufpool-dump [OPTION ..] NAME [FILE] [-- EAL-OPTION ..]\n"
	"    writes a snapshot of the mempool NAME, and in FILE.workers whose caches it has;\n"
	"    without FILE the one to the standard output, the other to the standard error\n"
	"mbufpool-dump [OPTION ..] --all FOLDER [-- EAL-OPTION ..]\n"
	"    writes one of each mempool of mbufs, as FOLDER/NAME.json\n"
	"\n"
	"  --file-prefix PREFIX  that of the program: rte where it has none\n"
	"  --stop                stops the program while its memory is copied\n"
	"  --times N             N snapshots, FILE.1 to FILE.N: how many of them have a fault, which\n"
	"                        faults are in all of them, and which packets stay, grouped\n"
	"  --every MS            milliseconds between two of them: 1000\n"
	"  --each                a line for each packet that stays\n"
	"  --audit PROGRAM       what audits them: mbufpool, where it is on the PATH\n"
	"  --help, --version\n"
	"\n"
	"Nothing is got from a mempool or put, and none is written to. `mbufpool audit FILE` says where\n"
	"each mbuf is. Status: 0; 1 failed; 2 wrong use; 3 each of N snapshots has a fault.\n";

/* ---- what is said ---- */

static void
say(const char *format, ...)
{
	va_list args;

	va_start(args, format);
	fputs(NAME ": ", stderr);
	vfprintf(stderr, format, args);
	fputc('\n', stderr);
	va_end(args);
}

/* What an error of a dump means here. */
static const char *
reason(int err)
{
	switch (err) {
	case -EINVAL:
		return "it isn't a pool of mbufs";
	case -E2BIG:
		return "it has no objects, or more than a snapshot can have";
	case -ENOTSUP:
		return "its handler keeps what is free in memory of the program's own: mbufpool-core --pid "
		       "dumps it, or the program itself (libmbufpool_dump.so)";
	case -EPROTO:
		return "the program's DPDK was built with other options than this tool's: another "
		       "RTE_MAX_LCORE or RTE_MEMPOOL_CACHE_MAX_SIZE, or a mempool's checks or statistics";
	case -EACCES:
		return "its objects are in memory that the program doesn't share";
	case -EPERM:
		return "what is free is in memory of the program's own, which this user may not read";
	case -EFAULT:
		return "the list of its objects leads out of its memory: what is in front of one was "
		       "overwritten";
	default:
		return strerror(-err);
	}
}

/* ---- the words ---- */

static int
wrong(const char *what, const char *word)
{
	say("%s%s: --help says how it is used", what, word);
	return WRONG_USE;
}

static int
number(const char *word, unsigned int least, unsigned int most, unsigned int *out)
{
	unsigned long n;
	char *end;

	errno = 0;
	n = strtoul(word, &end, 10);
	if (errno != 0 || *word < '0' || *word > '9' || *end != 0 || n < least || n > most)
		return -EINVAL;
	*out = n;
	return 0;
}

static const struct option words[] = {
	{"file-prefix", required_argument, NULL, 'p'}, {"all", required_argument, NULL, 'a'},
	{"stop", no_argument, NULL, 's'},	       {"times", required_argument, NULL, 't'},
	{"every", required_argument, NULL, 'e'},       {"each", no_argument, NULL, 'c'},
	{"audit", required_argument, NULL, 'u'},       {"proc-type", required_argument, NULL, 'y'},
	{"help", no_argument, NULL, 'h'},	       {"version", no_argument, NULL, 'v'},
	{NULL, 0, NULL, 0},
};

static int
read_option(int option)
{
	switch (option) {
	case 'p':
		o.prefix = optarg;
		return *optarg == 0 || strchr(optarg, '/') != NULL ? wrong("no prefix: ", optarg) : 0;
	case 'a':
		o.folder = optarg;
		return 0;
	case 's':
		o.is_stop = 1;
		return 0;
	case 't':
		return number(optarg, 2, MOST_TIMES, &o.times) == 0 ? 0
				: wrong("--times is 2 to 100, not ", optarg);
	case 'e':
		return number(optarg, 0, 3600000, &o.every) == 0 ? 0
				: wrong("--every is 0 to 3600000 milliseconds, not ", optarg);
	case 'c':
		o.is_each = 1;
		return 0;
	case 'u':
		o.audit = optarg;
		return 0;
	case 'y':
		return strcmp(optarg, "secondary") == 0 ? 0 : wrong("--proc-type is secondary, not ", optarg);
	case 'h':
		fputs(help, stdout);
		exit(0);
	case 'v':
		printf("mbufpool-dump %s, %s\n", MBUFPOOL_VERSION, rte_version());
		exit(0);
	default:
		return WRONG_USE;
	}
}

/* Reads the words: EAL's own begin behind `--`. */
static int
read_words(int argc, char **argv)
{
	int k = 1, option, ret;

	while (k < argc && strcmp(argv[k], "--") != 0)
		k++;
	o.eal = argv + RTE_MIN(k + 1, argc);
	o.nb_eal = argc - RTE_MIN(k + 1, argc);
	if (o.nb_eal > MOST_OPTIONS)
		return wrong("too many options", "");
	while ((option = getopt_long(k, argv, "", words, NULL)) != -1)
		if ((ret = read_option(option)) != 0)
			return ret;
	if (optind < k)
		o.pool = argv[optind++];
	if (optind < k)
		o.file = argv[optind++];
	if (optind < k)
		return wrong("a word too many: ", argv[optind]);
	if (o.folder != NULL && o.pool != NULL)
		return wrong("--all is of every mempool, not of ", o.pool);
	if (o.times > 1 && o.folder == NULL && o.file == NULL)
		return wrong("--times needs a FILE, or --all", "");
	return 0;
}

/* ---- EAL ---- */

/* EAL's services lie in the heap that the primary shares: each process takes memory for them there when
 * it begins. This one has no services, and takes none. (what stands here is linked in place of EAL's
 * own, where that is in an archive) */
int32_t
rte_service_init(void)
{
	return 0;
}

int32_t
rte_service_start_with_defaults(void)
{
	return 0;
}

void
rte_service_finalize(void)
{
}

/* The processors that this process may use, as EAL takes one lcore for all of them. */
static void
write_lcores(char *text, size_t room)
{
	cpu_set_t set;
	size_t used;
	int cpu;

	used = snprintf(text, room, "0@(");
	if (sched_getaffinity(0, sizeof(set), &set) != 0)
		CPU_ZERO(&set);
	for (cpu = 0; cpu < CPU_SETSIZE && used < room; cpu++)
		if (CPU_ISSET(cpu, &set))
			used += snprintf(text + used, room - used, "%s%d", used > 3 ? "," : "", cpu);
	if (used < room)
		snprintf(text + used, room - used, ")");
}

static int
begin_eal(pid_t primary)
{
	static char lcores[8192];
	char *argv[MOST_OPTIONS + 16] = {
		(char *)(uintptr_t)NAME, (char *)(uintptr_t)"--proc-type=secondary",
		(char *)(uintptr_t)"--file-prefix", (char *)(uintptr_t)o.prefix,
		(char *)(uintptr_t)"--no-pci", (char *)(uintptr_t)"--no-telemetry",
		(char *)(uintptr_t)"--log-level=*:error", (char *)(uintptr_t)"--lcores", lcores,
	};
	int argc = 9, k;

	write_lcores(lcores, sizeof(lcores));
	for (k = 0; k < o.nb_eal; k++)
		argv[argc++] = o.eal[k];
	if (rte_eal_init(argc, argv) >= 0)
		return 0;
	primary_forget_me(o.prefix);
	say("can't attach to process %ld, the primary of --file-prefix %s: %s (%s here)", (long)primary,
	    o.prefix, rte_errno != 0 ? rte_strerror(rte_errno) : "as EAL says above", rte_version());
	return FAILED;
}

static int
no_primary(void)
{
	char prefixes[1024];

	if (primary_prefixes(prefixes, sizeof(prefixes)) > 0)
		say("no DPDK program runs with --file-prefix %s; some run with: %s", o.prefix, prefixes);
	else
		say("no DPDK program runs with --file-prefix %s, nor with another, that shares its memory",
		    o.prefix);
	return FAILED;
}

/* ---- the list ---- */

struct pools {
	struct rte_mempool *all[1024];
	unsigned int count;
};

static void
add_pool(struct rte_mempool *mp, void *opaque)
{
	struct pools *pools = opaque;

	if (pools->count < RTE_DIM(pools->all))
		pools->all[pools->count++] = mp;
}

/* The name of a pool's handler: what the program has by this index, else what it lies in. */
static const char *
handler_of(const struct view *v)
{
	const char *name = handlers_name(&handlers, v->mp->ops_index);

	if (name == NULL)
		name = dump_common_handler(v);
	return name != NULL ? name : "?";
}

/* What is known of a pool without a copy of it. */
static void
list_pool(struct rte_mempool *mp)
{
	struct view v = {0};
	uint32_t inside, k;

	dump_view_glance(&v, mp);
	printf("%-26s %-16s %10" PRIu32 " ", mp->name, handler_of(&v), mp->populated_size);
	if (!dump_common_in_place(&v)) {
		printf("%10s\n", "?");
		return;
	}
	inside = dump_common_count(&v);
	if (inside == UINT32_MAX) {
		printf("%10s\n", "?");
		return;
	}
	for (k = 0; k < RTE_MAX_LCORE; k++)
		inside += v.nb_cached[k];
	printf("%10" PRIu32 "\n", mp->populated_size - RTE_MIN(inside, mp->populated_size));
}

static int
list_pools(void)
{
	struct pools pools = {.count = 0};
	unsigned int i;

	rte_mempool_walk(add_pool, &pools);
	printf("%-26s %-16s %10s %10s\n", "MEMPOOL", "HANDLER", "OBJECTS", "IN USE");
	for (i = 0; i < pools.count; i++)
		list_pool(pools.all[i]);
	return fflush(stdout) == 0 ? 0 : FAILED;
}

/* ---- what is to be dumped ---- */

/* Adds a pool, with the name of its file, or says why it can't be. */
static int
add_job(struct jobs *jobs, struct rte_mempool *mp, const char *file)
{
	struct job *job = &jobs->all[jobs->count];
	int ret = dump_view_open(&job->view, mp);

	if (ret == 0 && strlen(file) + 32 > sizeof(job->file))
		ret = -ENAMETOOLONG;
	if (ret != 0) {
		say("%s (%s) isn't dumped: %s", mp->name, handler_of(&job->view), reason(ret));
		dump_view_close(&job->view);
		memset(job, 0, sizeof(*job));
		/* (other pools than those of mbufs are left out of all) */
		return ret == -EINVAL && o.folder != NULL ? 0 : FAILED;
	}
	strcpy(job->name, mp->name);
	strcpy(job->file, file);
	jobs->count++;
	return 0;
}

static int
add_named(struct jobs *jobs)
{
	struct rte_mempool *mp = rte_mempool_lookup(o.pool);

	if (mp == NULL) {
		say("the program has no mempool '%s'; without a name, those that it has are listed", o.pool);
		return FAILED;
	}
	return add_job(jobs, mp, o.file != NULL ? o.file : "-");
}

static int
add_all(struct jobs *jobs, const struct pools *pools)
{
	char file[FILE_NAME], name[RTE_MEMPOOL_NAMESIZE], *slash;
	unsigned int i;
	int ret = 0;

	if (mkdir(o.folder, 0777) != 0 && errno != EEXIST) {
		say("%s: %s", o.folder, strerror(errno));
		return FAILED;
	}
	for (i = 0; i < pools->count; i++) {
		strcpy(name, pools->all[i]->name);
		while ((slash = strchr(name, '/')) != NULL)
			*slash = '_';
		snprintf(file, sizeof(file), "%s/%s.json", o.folder, name);
		if (add_job(jobs, pools->all[i], file) != 0)
			ret = FAILED;
	}
	return ret;
}

static int
add_jobs(struct jobs *jobs)
{
	struct pools pools = {.count = 0};

	rte_mempool_walk(add_pool, &pools);
	jobs->all = calloc(pools.count + 1, sizeof(*jobs->all));
	if (jobs->all == NULL) {
		say("there is too little memory");
		return FAILED;
	}
	return o.folder != NULL ? add_all(jobs, &pools) : add_named(jobs);
}

/* ---- the dumps ---- */

static FILE *
open_file(const char *file, const char *ending)
{
	char path[FILE_NAME + 32];
	FILE *f;

	snprintf(path, sizeof(path), "%s%s", file, ending);
	f = fopen(path, "w");
	if (f == NULL)
		say("%s can't be written: %s", path, strerror(errno));
	return f;
}

/* Writes the name of the file of the snapshot with this number, from 1. */
static void
name_file(char *out, size_t room, const struct job *job, unsigned int round)
{
	if (o.times == 1)
		snprintf(out, room, "%s", job->file);
	else
		snprintf(out, room, "%s.%u", job->file, round);
}

static int
open_files(struct jobs *jobs, unsigned int round)
{
	char file[FILE_NAME + 16];
	struct job *job;

	for (job = jobs->all; job < jobs->all + jobs->count; job++) {
		if (strcmp(job->file, "-") == 0) {
			job->out = stdout;
			job->workers = stderr;
			continue;
		}
		name_file(file, sizeof(file), job, round);
		job->out = open_file(file, "");
		job->workers = job->out == NULL ? NULL : open_file(file, ".workers");
		if (job->workers == NULL)
			return FAILED;
	}
	return 0;
}

/* Closes a file, and says whether all was written. */
static int
close_file(FILE **f)
{
	FILE *file = *f;

	*f = NULL;
	if (file == NULL || file == stderr)
		return 0;
	if (file == stdout)
		return fflush(file) == 0 ? 0 : -EIO;
	return fclose(file) == 0 ? 0 : -EIO;
}

static void
copy_pools(struct jobs *jobs)
{
	struct job *job;

	for (job = jobs->all; job < jobs->all + jobs->count; job++)
		job->copied = dump_view_fill(&job->view);
}

/* Copies each pool while the program stands. It is done once before, so that the memory for it is there
 * and the primary's is at hand. */
static int
copy_standing(struct jobs *jobs)
{
	long stood;
	int ret;

	copy_pools(jobs);
	ret = primary_stop();
	if (ret != 0) {
		say("the program can't be stopped: %s", strerror(-ret));
		return FAILED;
	}
	copy_pools(jobs);
	stood = primary_go_on();
	if (stood > 0)
		say("the program stood for %ld.%03ld ms", stood / 1000, stood % 1000);
	else if (stood == 0)
		say("the program had been stopped by others, and stays so");
	else
		say("the program went on before it was copied");
	return stood < 0 ? FAILED : 0;
}

static int
write_files(struct jobs *jobs)
{
	struct job *job;
	int ret, failed = 0;

	for (job = jobs->all; job < jobs->all + jobs->count; job++) {
		ret = job->copied != 0 ? job->copied : dump_view_write(job->out, &job->view);
		dump_view_write_workers(job->workers, &job->view);
		if (close_file(&job->out) != 0 && ret == 0)
			ret = -EIO;
		if (close_file(&job->workers) != 0 && ret == 0)
			ret = -EIO;
		if (ret == 0)
			continue;
		say("%s isn't dumped: %s", job->name, reason(ret));
		failed = FAILED;
	}
	return failed;
}

static int
dump_once(struct jobs *jobs, unsigned int round)
{
	int ret = open_files(jobs, round);

	if (ret == 0 && o.is_stop)
		ret = copy_standing(jobs);
	else if (ret == 0)
		copy_pools(jobs);
	return ret != 0 ? ret : write_files(jobs);
}

static void
rest(void)
{
	const struct timespec moment = {o.every / 1000, o.every % 1000 * 1000000L};

	nanosleep(&moment, NULL);
}

/* Looks at the packets of the last snapshot, while their data are at hand. */
static int
look_at_packets(struct jobs *jobs)
{
	struct job *job;

	for (job = jobs->all; job < jobs->all + jobs->count; job++)
		if (looks_take(&job->looks, &job->view) != 0) {
			say("there is too little memory");
			return FAILED;
		}
	return 0;
}

static int
dump_times(struct jobs *jobs)
{
	unsigned int round;
	int ret = 0;

	for (round = 1; ret == 0 && ended_by == 0 && round <= o.times; round++) {
		if (round > 1)
			rest();
		if (ended_by == 0)
			ret = dump_once(jobs, round);
	}
	return ret != 0 || o.times == 1 || ended_by != 0 ? ret : look_at_packets(jobs);
}

/* ---- what stands in all of them ---- */

/* Writes what was found of a pool. */
static int
write_findings(const struct findings *found, const struct job *job)
{
	const struct lines packets = findings_packets(found);
	char file[FILE_NAME + 16];
	size_t k;

	findings_write_faults(stdout, found, job->name);
	if (findings_are_faulty(found) && found->faults.count == 0) {
		name_file(file, sizeof(file), job, o.times);
		printf("another one each time: mbufpool audit %s --all\n", file);
	}
	if (!o.is_each)
		return looks_write(stdout, &packets, &job->looks, &job->view);
	for (k = 0; k < packets.count; k++)
		printf("stays: %s\n", packets.all[k].text);
	return 0;
}

/* Why the snapshots of a pool weren't audited. */
static void
say_not_audited(const struct job *job, const char *program, const char *said, int err)
{
	if (err == -ENOTSUP)
		say("the snapshots of %s aren't audited: this %s doesn't know `audit FILE --all`, take a "
		    "newer one (--audit PROGRAM)", job->name, program);
	else
		say("the snapshots of %s aren't audited by %s: %s", job->name, program,
		    err != -EPROTO ? strerror(-err) : said != NULL ? said : "it says nothing of them");
}

/* Audits the snapshots of a pool, and writes what is in all of them. */
static int
find_in_job(const struct job *job, const char *program)
{
	struct findings found = {.snapshots = 0};
	char file[FILE_NAME + 16];
	unsigned int round;
	int ret = 0;

	for (round = 1; ret == 0 && round <= o.times; round++) {
		name_file(file, sizeof(file), job, round);
		ret = findings_add(&found, program, file);
	}
	if (ret == 0)
		ret = write_findings(&found, job);
	if (ret == 0)
		ret = findings_are_faulty(&found) ? FOUND : 0;
	else if (ret != -ENOENT || o.audit != NULL)
		say_not_audited(job, program, found.said, ret);
	findings_end(&found);
	return ret;
}

static int
find_in_all(const struct jobs *jobs)
{
	const char *program = o.audit != NULL ? o.audit : "mbufpool";
	const struct job *job;
	int ret, found = 0;

	for (job = jobs->all; job < jobs->all + jobs->count; job++) {
		ret = find_in_job(job, program);
		if (ret == -ENOENT && o.audit == NULL) {
			say("there is no mbufpool on the PATH: the snapshots are written, and not audited");
			return 0;
		}
		if (ret < 0)
			return FAILED;
		found = RTE_MAX(found, ret);
	}
	return fflush(stdout) == 0 ? found : FAILED;
}

/* ---- the life of this process ---- */

static void
note_signal(int signal)
{
	ended_by = signal;
}

/* The first signal ends this when what is being written is, the second at once. */
static void
take_signals(void)
{
	static const int all[] = {SIGINT, SIGTERM, SIGHUP};
	struct sigaction action = {.sa_handler = note_signal, .sa_flags = SA_RESETHAND};
	size_t i;

	for (i = 0; i < RTE_DIM(all); i++)
		sigaction(all[i], &action, NULL);
}

/* What is done while the primary's memory is here. */
static int
look(struct jobs *jobs)
{
	int ret;

	if (o.pool == NULL && o.folder == NULL)
		return list_pools();
	ret = add_jobs(jobs);
	if (dump_times(jobs) != 0) {
		jobs->count = 0;
		ret = FAILED;
	}
	return ret;
}

/* (EAL is left before the audits, which may take their time) */
static int
serve(pid_t primary)
{
	struct jobs jobs = {NULL, 0};
	int ret = begin_eal(primary), found = 0;
	unsigned int i, count;

	if (ret != 0)
		return ret;
	handlers_read(&handlers, primary);
	ret = look(&jobs);
	rte_log_set_global_level(RTE_LOG_CRIT); /* what EAL can't take down at its end goes with it */
	rte_eal_cleanup();
	if (o.times > 1 && ended_by == 0)
		found = find_in_all(&jobs);
	for (i = 0, count = jobs.count; i < count; i++) {
		dump_view_close(&jobs.all[i].view);
		looks_end(&jobs.all[i].looks);
	}
	free(jobs.all);
	return ret != 0 ? ret : found;
}

/* Whether the program can be stopped. */
static int
may_stop(pid_t primary)
{
	int ret = primary < 0 ? -ESRCH : primary_watch(primary);

	if (ret != 0)
		say("the program can't be stopped: %s", strerror(-ret));
	return ret == 0;
}

int
main(int argc, char **argv)
{
	int ret = read_words(argc, argv);
	const char *why;
	pid_t primary;

	if (ret != 0)
		return ret;
	primary = primary_find(o.prefix);
	if (primary == 0)
		return no_primary();
	why = primary_why_not(primary, o.prefix);
	if (why != NULL) {
		say("the program with --file-prefix %s shares no memory: %s; mbufpool-core --pid %ld dumps it, "
		    "or the program itself (libmbufpool_dump.so)", o.prefix, why, (long)primary);
		return FAILED;
	}
	if (o.is_stop && !may_stop(primary))
		return FAILED;
	take_signals();
	ret = serve(primary);
	primary_unwatch();
	if (ended_by != 0) {
		say("ended by signal %d", (int)ended_by);
		return 128 + ended_by;
	}
	return ret;
}
