/* threads.c - a run: the threads of a cell, each on an lcore of its own, which EAL has bound to a
 * processor, begin together and do rounds until the time has passed. */
#include <string.h>
#include <time.h>

#include <rte_launch.h>
#include <rte_lcore.h>
#include <rte_pause.h>
#include <rte_ring_elem.h>

#include "bench.h"

#define RING 1024
#define BATCH 100000	/* nanoseconds between two looks at the clock, about */
#define LEAST_BATCH 64	/* elements */
#define MOST_BATCH (UINT64_C(1) << 24)	/* rounds */

struct rte_ring *pass_ring;
bool is_over;

struct thread {
	void *user;
	uint64_t rounds, refused;
	uint64_t wall, processor; /* nanoseconds */
	uint32_t drained;
} __rte_cache_aligned;

/* What is run: all threads read it. */
static struct {
	const struct cell *cell;
	const struct pool *pool;
	uint64_t ns;
	unsigned int waiting; /* threads that haven't come to their first round */
	unsigned int working; /* threads that haven't ended */
	void (*work)(struct thread *t);
	struct thread thread[MOST_THREADS];
} run;

static uint64_t
now_on(clockid_t clock)
{
	struct timespec t;

	clock_gettime(clock, &t);
	return t.tv_sec * UINT64_C(1000000000) + t.tv_nsec;
}

static uint64_t
play(struct thread *t, uint64_t rounds)
{
	return run.cell->is_checked ? check_rounds(run.pool, run.cell->workload, t->user, rounds)
				    : run.pool->play(t->user, rounds);
}

static uint64_t
least_batch(void)
{
	return run.cell->rounds != 0 ? run.cell->rounds
				     : LEAST_BATCH / size_of(run.cell->workload) + 1;
}

/* Touches what the rounds use. */
static void
warm_up(struct thread *t)
{
	const uint64_t begun = now_on(CLOCK_MONOTONIC);

	if (run.cell->rounds != 0)
		play(t, run.cell->rounds / 4 + 1);
	else
		do
			play(t, least_batch());
		while (now_on(CLOCK_MONOTONIC) - begun < BATCH);
}

/* How many rounds the next batch has, where the last took so long. Threads that wait for one
 * which has lost its processor take a thousand times as long as others. */
static uint64_t
next_batch(uint64_t batch, uint64_t took)
{
	if (run.cell->rounds != 0)
		return batch;
	if (took < BATCH / 2)
		return RTE_MIN(batch * 2, MOST_BATCH);
	return took > BATCH * 2 ? RTE_MAX(batch / 2, least_batch()) : batch;
}

/* Does batches until the time has passed, or another thread has ended, which would else be
 * missed. */
static void
play_batches(struct thread *t)
{
	const uint64_t begun = now_on(CLOCK_MONOTONIC), begun_work = now_on(CLOCK_THREAD_CPUTIME_ID);
	uint64_t batch = least_batch(), before;

	do {
		before = t->wall;
		t->refused += play(t, batch);
		t->rounds += batch;
		t->wall = now_on(CLOCK_MONOTONIC) - begun;
		batch = next_batch(batch, t->wall - before);
	} while (t->wall < run.ns && !__atomic_load_n(&is_over, __ATOMIC_RELAXED));
	t->processor = now_on(CLOCK_THREAD_CPUTIME_ID) - begun_work;
	__atomic_store_n(&is_over, true, __ATOMIC_SEQ_CST);
}

static void
wait_for_all(void)
{
	__atomic_sub_fetch(&run.waiting, 1, __ATOMIC_SEQ_CST);
	while (__atomic_load_n(&run.waiting, __ATOMIC_SEQ_CST) != 0)
		rte_pause();
}

/* Where the second thread answers, the first can't warm up before that has begun. */
static void
run_thread(struct thread *t)
{
	const struct pool *pool = run.pool;
	const bool is_answering = pool->answer != NULL && t != &run.thread[0];

	if (pool->calls->ready != NULL && !pool->calls->ready(t->user))
		fault("a thread couldn't get what it begins with");
	if (pool->answer == NULL)
		warm_up(t);
	wait_for_all();
	if (is_answering && run.cell->is_checked)
		check_answer(pool, run.cell->workload, t->user);
	else if (is_answering)
		pool->answer(t->user);
	else {
		if (pool->answer != NULL)
			warm_up(t);
		play_batches(t);
	}
	if (pool->calls->rest != NULL)
		pool->calls->rest(t->user);
}

static void
drain_thread(struct thread *t)
{
	t->drained = drain(run.pool, t->user);
}

/* (so that what passes between the main lcore and this one is seen by a thread sanitizer, which
 * knows nothing of EAL's pipes) */
static int
on_lcore(void *arg)
{
	(void)__atomic_load_n(&run.working, __ATOMIC_SEQ_CST);
	run.work(arg);
	__atomic_sub_fetch(&run.working, 1, __ATOMIC_SEQ_CST);
	return 0;
}

/* Lets n threads from this one on work, and waits for them. The first is the main lcore's. */
static void
in_threads(void (*work)(struct thread *), unsigned int first, unsigned int n)
{
	unsigned int i;

	run.work = work;
	__atomic_store_n(&run.working, n, __ATOMIC_SEQ_CST);
	for (i = RTE_MAX(first, 1u); i < first + n; i++)
		rte_eal_remote_launch(on_lcore, &run.thread[i], i);
	if (first == 0)
		on_lcore(&run.thread[0]);
	while (__atomic_load_n(&run.working, __ATOMIC_SEQ_CST) != 0)
		rte_pause();
	rte_eal_mp_wait_lcore();
}

/* Looks that each element can be got once: by one thread after the other, as each may have a
 * cache. */
static void
check_drain(const struct cell *cell)
{
	uint32_t all = 0;
	unsigned int i;

	for (i = 0; i < cell->threads; i++) {
		in_threads(drain_thread, i, 1);
		all += run.thread[i].drained;
	}
	if (all != cell->population)
		fault("%u of %u elements could be got in the end", all, cell->population);
}

/* The mean of the threads that play; of a list that is passed or sent what both threads took. */
static struct tally
tally_of(const struct cell *cell, const struct pool *pool)
{
	const unsigned int playing = pool->answer != NULL ? 1 : cell->threads;
	const enum form form = workloads[cell->workload].form;
	const double share = form == PASSED || form == SENT ? cell->threads : 1.0 / playing;
	struct tally all = { 0, 0, 0, 0 };
	unsigned int i;

	for (i = 0; i < playing; i++) {
		const struct thread *t = &run.thread[i];
		uint64_t asked = t->rounds * size_of(cell->workload);
		uint64_t elements = asked > t->refused ? asked - t->refused : 0;

		all.elements += elements;
		all.refused += t->refused;
		all.wall += share * t->wall / RTE_MAX(elements, UINT64_C(1));
		all.processor += share * t->processor / RTE_MAX(elements, UINT64_C(1));
	}
	return all;
}

struct tally
play_pool(const struct cell *cell, const struct pool *pool, uint64_t ns)
{
	const enum form form = workloads[cell->workload].form;
	const bool has_ring = form == PASSED || form == SENT;
	struct tally tally = { 0, 0, 0, 0 };
	unsigned int i;

	memset(&run, 0, sizeof(run));
	run.cell = cell;
	run.pool = pool;
	run.ns = ns;
	run.waiting = cell->threads;
	is_over = false;
	for (i = 0; i < cell->threads; i++)
		run.thread[i].user = pool->user[i];
	if (has_ring) {
		pass_ring = rte_ring_create_elem("bench-pass", pool->calls->ref_size, RING,
			SOCKET_ID_ANY, RING_F_SP_ENQ | RING_F_SC_DEQ);
		if (pass_ring == NULL) {
			fault("there is no memory for a ring");
			return tally;
		}
	}
	in_threads(run_thread, 0, cell->threads);
	if (has_ring)
		rte_ring_free(pass_ring);
	if (cell->is_checked && pool->calls->get != NULL)
		check_drain(cell);
	tally = tally_of(cell, pool);
	if (tally.elements == 0)
		fault("nothing was got");
	return tally;
}
