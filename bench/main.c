/* main.c - what it costs to get elements and packets and to put them back: on DPDK's mempool by
 * any handler, by mbufpool.h, and in plain C, beside one another.
 *
 *     ./bench [OPTION ..] [-- WORD OF EAL ..]
 *
 * README.md has the options, the workloads and how to read what is printed. */
#ifndef _GNU_SOURCE
#define _GNU_SOURCE /* for the set of processors */
#endif
#include <ctype.h>
#include <getopt.h>
#include <inttypes.h>
#include <sched.h>
#include <signal.h>
#include <stdarg.h>
#include <stdio.h>
#include <stdlib.h>
#include <string.h>
#include <sys/time.h>
#include <unistd.h>

#include <rte_eal.h>
#include <rte_mempool.h>

#include "bench.h"

#define MOST_SUBJECTS 32
#define MOST_NUMBERS 8
#define MOST_RUNS 1000
#define MOST_WORDS 64
#define LEAST_POPULATION 2048	/* so that four threads hold what their rounds and caches keep */
#define MOST_POPULATION 1000000
#define PATIENCE 120 /* seconds of processor time beside its own, after which a run has hung */

const struct workload_facts workloads[WORKLOADS] = {
	[STK1] = { "stk1", BARE },
	[STK8] = { "stk8", BARE },
	[STK32] = { "stk32", BARE },
	[GET1] = { "get1", ELEMENTS },
	[GET32] = { "get32", ELEMENTS },
	[PKT1] = { "pkt1", PACKETS },
	[PKT32] = { "pkt32", PACKETS },
	[PKT240] = { "pkt240", PACKETS },
	[CLONE1] = { "clone1", CLONES },
	[CLONE4] = { "clone4", CLONES },
	[PASS1] = { "pass1", PASSED },
	[PASS32] = { "pass32", PASSED },
	[SEND1] = { "send1", SENT },
	[SEND32] = { "send32", SENT },
	[HANDOVER] = { "handover", HANDED },
};

/* Those that are measured where no names are given; the last two are known by name alone. */
static const struct subject *const known[] = {
	&ring_mp_mc_subject, &lf_stack_subject, &stack_subject, &plain_subject,
#ifdef WITH_LIBRARY
	&pool_subject, &worker_subject, &parcel_subject, &parcel_packed_subject,
#endif
	&ring_sp_sc_subject, &ring_read_subject, &ring_copy_subject, &none_subject, &twice_subject,
	&loses_subject,
};
#define FAULTY 2

static const char *const handlers[] = { "mbufpool", "mbufpool_guard" };

/* What is asked for. */
static struct {
	const char *workloads, *subjects;
	unsigned long threads[MOST_NUMBERS], caches[MOST_NUMBERS];
	unsigned int nb_threads, nb_caches;
	unsigned long population, rounds, ms, runs;
	bool by_processor, as_json, is_checked;
} asked = {
	.threads = { 1, 2, 4 }, .nb_threads = 3,
	.caches = { 0, 256 }, .nb_caches = 2,
	.population = 8191, .ms = 40, .runs = 7,
};

static struct subject subjects[MOST_SUBJECTS];
static unsigned int nb_subjects;

static __rte_format_printf(1, 2) __rte_noreturn void
refuse(const char *format, ...)
{
	va_list arguments;

	fputs("bench: ", stderr);
	va_start(arguments, format);
	vfprintf(stderr, format, arguments);
	va_end(arguments);
	fputc('\n', stderr);
	exit(2);
}

/* ---- the words ---- */

static unsigned long
number(const char *option, const char *word, unsigned long least, unsigned long most)
{
	char *end;
	unsigned long value = strtoul(word, &end, 10);

	if (!isdigit((unsigned char)*word) || (*end != 0 && *end != ',') || value < least ||
		value > most)
		refuse("--%s: '%s' isn't a number from %lu to %lu", option, word, least, most);
	return value;
}

static unsigned long
one_number(const char *option, const char *word, unsigned long least, unsigned long most)
{
	if (strchr(word, ',') != NULL)
		refuse("--%s: '%s' isn't one number", option, word);
	return number(option, word, least, most);
}

static unsigned int
numbers(const char *option, const char *word, unsigned long least, unsigned long most,
	unsigned long *list)
{
	unsigned int n = 0;

	for (; word != NULL; word = strchr(word, ',')) {
		if (n == MOST_NUMBERS)
			refuse("--%s: more than %u numbers", option, MOST_NUMBERS);
		word += n != 0;
		list[n++] = number(option, word, least, most);
	}
	return n;
}

/* Whether a name stands in a list with commas between; no list has each. */
static bool
is_listed(const char *list, const char *name)
{
	const size_t length = strlen(name);

	for (; list != NULL; list = strchr(list, ',') ? strchr(list, ',') + 1 : NULL)
		if (strncmp(list, name, length) == 0 && (list[length] == ',' || list[length] == 0))
			return true;
	return false;
}

static void
look_at_workloads(void)
{
	const char *name = asked.workloads;
	enum workload w;
	size_t length;

	for (; name != NULL && *name != 0; name += length + (name[length] == ',')) {
		length = strcspn(name, ",");
		for (w = 0; w < WORKLOADS; w++)
			if (strlen(workloads[w].name) == length &&
				strncmp(workloads[w].name, name, length) == 0)
				break;
		if (w == WORKLOADS)
			refuse("--workload: there is no '%.*s'", (int)length, name);
	}
}

static const char usage[] =
	"bench [OPTION ..] [-- WORD OF EAL ..]\n"
	"  --workload NAMES  stk1,stk8,stk32,get1,get32,pkt1,pkt32,pkt240,clone1,clone4,\n"
	"                    pass1,pass32,send1,send32,handover\n"
	"  --subject NAMES   ring_mp_mc,lf_stack,stack,plain,none,pool,worker,parcel,mbufpool,..,\n"
	"                    or another mempool handler\n"
	"  --threads LIST    1,2,4\n"
	"  --cache LIST      0,256\n"
	"  --population N    8191\n"
	"  --ms N            40: milliseconds of a run\n"
	"  --rounds N        a run is so many rounds of each thread, and a quarter before\n"
	"  --runs N          7\n"
	"  --clock CLOCK     wall, or processor\n"
	"  --json            the figures of each run\n"
	"  --check           looks at each element too, and says whether all was as it should be\n";

static void
read_words(int argc, char **argv)
{
	static const struct option options[] = {
		{ "workload", required_argument, NULL, 'w' }, { "subject", required_argument, NULL, 's' },
		{ "threads", required_argument, NULL, 't' }, { "cache", required_argument, NULL, 'c' },
		{ "population", required_argument, NULL, 'p' }, { "ms", required_argument, NULL, 'm' },
		{ "rounds", required_argument, NULL, 'n' }, { "runs", required_argument, NULL, 'r' },
		{ "clock", required_argument, NULL, 'k' }, { "json", no_argument, NULL, 'j' },
		{ "check", no_argument, NULL, 'x' }, { "help", no_argument, NULL, 'h' },
		{ NULL, 0, NULL, 0 },
	};
	int option;

	while ((option = getopt_long(argc, argv, "+", options, NULL)) != -1)
		switch (option) {
		case 'w': asked.workloads = optarg; break;
		case 's': asked.subjects = optarg; break;
		case 't':
			asked.nb_threads =
				numbers("threads", optarg, 1, MOST_THREADS, asked.threads);
			break;
		case 'c': asked.nb_caches = numbers("cache", optarg, 0, 512, asked.caches); break;
		case 'p':
			asked.population =
				one_number("population", optarg, LEAST_POPULATION, MOST_POPULATION);
			break;
		case 'm': asked.ms = one_number("ms", optarg, 1, 60000); break;
		case 'n': asked.rounds = one_number("rounds", optarg, 1, 1000000000); break;
		case 'r': asked.runs = one_number("runs", optarg, 1, MOST_RUNS); break;
		case 'k':
			asked.by_processor = strcmp(optarg, "processor") == 0;
			if (!asked.by_processor && strcmp(optarg, "wall") != 0)
				refuse("--clock: wall or processor, not '%s'", optarg);
			break;
		case 'j': asked.as_json = true; break;
		case 'x': asked.is_checked = true; break;
		case 'h': fputs(usage, stdout); exit(0);
		default: fputs(usage, stderr); exit(2);
		}
	if (optind < argc && strcmp(argv[optind - 1], "--") != 0)
		refuse("'%s' is no option: words of EAL stand behind --", argv[optind]);
	look_at_workloads();
}

/* ---- EAL ---- */

/* Writes the lcores: 0 to n - 1, each on a processor of its own as far as there are some. */
static void
write_lcores(unsigned int n, char *lcores, size_t size)
{
	cpu_set_t set;
	unsigned int cpu[CPU_SETSIZE], i, nb_cpus = 0;
	size_t used = 0;

	if (sched_getaffinity(0, sizeof(set), &set) != 0)
		refuse("it isn't known which processors there are");
	for (i = 0; i < CPU_SETSIZE; i++)
		if (CPU_ISSET(i, &set))
			cpu[nb_cpus++] = i;
	if (nb_cpus < n)
		fprintf(stderr,
			"bench: %u threads share %u processors: their times say nothing\n", n,
			nb_cpus);
	for (i = 0; i < n && used < size; i++)
		used += snprintf(lcores + used, size - used, "%s%u@%u", i ? "," : "", i,
			cpu[i % nb_cpus]);
}

static void
begin_eal(int nb_words, char **words)
{
	char lcores[256], prefix[32], program[] = "bench", no_huge[] = "--no-huge", memory[] = "-m",
	     size[] = "512", no_pci[] = "--no-pci", no_telemetry[] = "--no-telemetry",
	     no_shconf[] = "--no-shconf", list[] = "--lcores", file_prefix[] = "--file-prefix",
	     level[] = "--log-level", errors[] = "*:error", /* (a table that has no more places) */
	     of_mempools[] = "--log-level=lib.mempool:critical";
	char *eal[MOST_WORDS + 1] = { program, no_huge, memory, size, no_pci, no_telemetry, no_shconf,
		list, lcores, file_prefix, prefix, level, errors, of_mempools };
	int n = 14, i;
	unsigned int k, threads = 1;

	for (k = 0; k < asked.nb_threads; k++)
		threads = RTE_MAX(threads, (unsigned int)asked.threads[k]);
	write_lcores(threads, lcores, sizeof(lcores));
	snprintf(prefix, sizeof(prefix), "bench%d", (int)getpid());
	if (nb_words > MOST_WORDS - n)
		refuse("too many words of EAL");
	for (i = 0; i < nb_words; i++)
		eal[n++] = words[i];
	if (rte_eal_init(n, eal) < 0)
		refuse("EAL doesn't begin");
	/* (nothing is shared, so that the folder for it is empty) */
	rmdir(rte_eal_get_runtime_dir());
}

/* ---- subjects ---- */

static bool
has_handler(const char *name)
{
	unsigned int i;

	for (i = 0; i < rte_mempool_ops_table.num_ops; i++)
		if (strcmp(rte_mempool_ops_table.ops[i].name, name) == 0)
			return true;
	return false;
}

static void
add_subject(const struct subject *subject, const char *name)
{
	if (nb_subjects == MOST_SUBJECTS)
		refuse("more than %u subjects", MOST_SUBJECTS);
	subjects[nb_subjects] = *subject;
	snprintf(subjects[nb_subjects].name, NAME_SIZE, "%s", name);
	if (!subject->is_handler || has_handler(name))
		nb_subjects++;
}

static const struct subject *
subject_named(const char *name)
{
	unsigned int i;

	for (i = 0; i < RTE_DIM(known); i++)
		if (strcmp(known[i]->name, name) == 0)
			return known[i];
	return &mempool_subject;
}

/* Those that are named, in that order, or all but the faulty ones. */
static void
choose_subjects(void)
{
	const char *list = asked.subjects;
	char name[NAME_SIZE];
	unsigned int i, before;
	size_t length;

	for (; list != NULL && *list != 0; list += length + (list[length] == ',')) {
		length = strcspn(list, ",");
		snprintf(name, sizeof(name), "%.*s", (int)RTE_MIN(length, (size_t)NAME_SIZE - 1),
			list);
		before = nb_subjects;
		add_subject(subject_named(name), name);
		if (nb_subjects == before)
			refuse("--subject: there is no '%s'", name);
	}
	if (asked.subjects != NULL)
		return;
	for (i = 0; i < RTE_DIM(known) - FAULTY; i++)
		add_subject(known[i], known[i]->name);
	for (i = 0; i < RTE_DIM(handlers); i++)
		add_subject(&mempool_subject, handlers[i]);
}

/* Whether the subject has this cell. Some forms have no cache, and two threads pass, send and
 * hand over. */
static bool
has_cell(const struct subject *s, const struct cell *cell)
{
	const enum form form = workloads[cell->workload].form;

	if (s->open[form] == NULL || (s->most_threads != 0 && cell->threads > s->most_threads))
		return false;
	if (cell->cache != 0 && (s->has_no_cache || form == BARE || form == HANDED))
		return false;
	if (form == PASSED || form == SENT)
		return cell->threads == 2;
	return form != HANDED || cell->threads <= 2;
}

/* ---- cells ---- */

/* What the runs of one cell came to. */
struct figures {
	double wall[MOST_RUNS], processor[MOST_RUNS];
	uint64_t elements, refused;
};

static char hanging[128]; /* what is said of the run where it doesn't end */

static void
hangs(int signal)
{
	(void)signal;
	(void)!write(STDERR_FILENO, hanging, strlen(hanging));
	_exit(1);
}

/* Threads that wait for one another spin, so a run that hangs takes processor time; one that
 * only comes to no processor doesn't. */
static void
be_patient(long seconds)
{
	const struct itimerval time = { .it_value = { .tv_sec = seconds } };

	setitimer(ITIMER_PROF, &time, NULL);
}

static struct tally
run_once(const struct subject *subject, const struct cell *cell)
{
	struct tally tally = { 0, 0, 0, 0 };
	struct pool pool = { 0 };
	int64_t missing;

	checks_begin(subject, cell);
	if (!subject->open[workloads[cell->workload].form](subject, cell, &pool)) {
		fault("the pool can't be made");
		return tally;
	}
	snprintf(hanging, sizeof(hanging),
		"bench: %s on %s, %u threads, cache %u: the run doesn't end\n",
		workloads[cell->workload].name, subject->name, cell->threads, cell->cache);
	be_patient(PATIENCE + asked.ms / 1000 * cell->threads);
	tally = play_pool(cell, &pool, asked.rounds != 0 ? 0 : asked.ms * UINT64_C(1000000));
	be_patient(0);
	/* (a check has drained it, where that can be) */
	missing = pool.calls->missing(&pool);
	if (cell->is_checked && pool.calls->get != NULL)
		missing -= cell->population;
	if (missing > 0)
		fault("%" PRId64 " elements are missing in the end", missing);
	if (missing < 0)
		fault("there are %" PRId64 " elements too many in the end", -missing);
	pool.calls->close(&pool);
	return tally;
}

static int
by_size(const void *a, const void *b)
{
	double x = *(const double *)a, y = *(const double *)b;

	return (x > y) - (x < y);
}

static void
print_line(const struct subject *subject, const struct cell *cell, struct figures *f)
{
	double *ns = asked.by_processor ? f->processor : f->wall;

	qsort(ns, asked.runs, sizeof(ns[0]), by_size);
	printf("%-8s %7u %6u %-18s %9.2f %9.2f %9.2f %15" PRIu64 "\n", workloads[cell->workload].name,
		cell->threads, cell->cache, subject->name, ns[0], ns[asked.runs / 2],
		ns[asked.runs - 1],
		f->refused * 1000 / RTE_MAX(f->elements + f->refused, UINT64_C(1)));
}

static void
print_runs(const char *key, const double *ns)
{
	unsigned long i;

	printf(",\"%s\":[", key);
	for (i = 0; i < asked.runs; i++)
		printf("%s%.3f", i ? "," : "", ns[i]);
	printf("]");
}

static void
print_json(const struct subject *subject, const struct cell *cell, const struct figures *f)
{
	static bool is_first = true;

	printf("%s{\"workload\":\"%s\",\"threads\":%u,\"cache\":%u,\"subject\":\"%s\","
	       "\"population\":%u,\"elements\":%" PRIu64 ",\"refused\":%" PRIu64,
		is_first ? "" : ",\n", workloads[cell->workload].name, cell->threads, cell->cache,
		subject->name, cell->population, f->elements, f->refused);
	print_runs("wall_ns", f->wall);
	print_runs("processor_ns", f->processor);
	printf("}");
	is_first = false;
}

/* One run of each subject in turn, as often as runs are asked for; then a line for each. */
static void
measure_cell(struct cell *cell)
{
	static struct figures figures[MOST_SUBJECTS];
	struct tally tally;
	unsigned long r;
	unsigned int i;

	memset(figures, 0, sizeof(figures));
	for (r = 0; r < asked.runs; r++)
		for (i = 0; i < nb_subjects; i++) {
			if (!has_cell(&subjects[i], cell))
				continue;
			if (asked.is_checked) {
				cell->is_checked = true;
				run_once(&subjects[i], cell);
				cell->is_checked = false;
			}
			tally = run_once(&subjects[i], cell);
			figures[i].wall[r] = tally.wall;
			figures[i].processor[r] = tally.processor;
			figures[i].elements += tally.elements;
			figures[i].refused += tally.refused;
		}
	for (i = 0; i < nb_subjects; i++)
		if (has_cell(&subjects[i], cell)) {
			if (asked.as_json)
				print_json(&subjects[i], cell, &figures[i]);
			else
				print_line(&subjects[i], cell, &figures[i]);
		}
	fflush(stdout);
}

static void
measure(void)
{
	struct cell cell = { .population = asked.population, .rounds = asked.rounds };
	unsigned int t, c;

	printf(asked.as_json ? "[\n"
			     : "workload threads  cache subject             least ns median ns  greatest "
			       "refused of 1000\n");
	for (cell.workload = 0; cell.workload < WORKLOADS; cell.workload++) {
		if (asked.workloads != NULL &&
			!is_listed(asked.workloads, workloads[cell.workload].name))
			continue;
		for (t = 0; t < asked.nb_threads; t++)
			for (c = 0; c < asked.nb_caches; c++) {
				cell.threads = asked.threads[t];
				cell.cache = asked.caches[c];
				measure_cell(&cell);
			}
	}
	if (asked.as_json)
		printf("\n]\n");
}

int
main(int argc, char **argv)
{
	read_words(argc, argv);
	begin_eal(argc - optind, argv + optind);
	signal(SIGPROF, hangs);
	choose_subjects();
	measure();
	if (fflush(stdout) != 0 || ferror(stdout))
		refuse("the figures can't be written");
	if (asked.is_checked)
		fprintf(stderr, "bench: %u faults\n", faults_told());
	/* (what EAL has made beside the figures needs no end) */
	_exit(faults_told() != 0);
}
