/* watch_tick.c - what the environment asks of the handler "mbufpool_watch", the list of its mempools, and what
 * is looked at ten times a second, in EAL's thread for interrupts: which ports have started, what is out for
 * long, and whether anything is watched. */
#include <ctype.h>
#include <errno.h>
#include <pthread.h>
#include <stdlib.h>
#include <string.h>

#include <rte_alarm.h>
#include <rte_cycles.h>

#include "watch.h"

#define TICK_US 100000
#define TICKS_A_SECOND 10
#define MOST_MBUFS 65534
#define MOST_EVERY (UINT64_C(1) << 32)
#define MOST_SECONDS 1000000

/* ---- wishes ---- */

static uint64_t
read_number(const char *name, uint64_t otherwise, uint64_t least, uint64_t most)
{
	const char *wish = getenv(name);
	unsigned long long number;
	char *end;

	if (wish == NULL)
		return otherwise;
	errno = 0;
	number = strtoull(wish, &end, 10);
	if (isdigit((unsigned char)*wish) && *end == 0 && errno == 0 && number >= least && number <= most)
		return number;
	watch_log_wish(name, wish, least, most);
	return otherwise;
}

void
watch_read_wishes(struct watch_wishes *wishes)
{
	const char *over = getenv("MBUFPOOL_WATCH_OVER");

	wishes->over = over != NULL ? over : "mbufpool";
	wishes->mbufs = read_number("MBUFPOOL_WATCH_MBUFS", 1024, 0, MOST_MBUFS);
	wishes->every = read_number("MBUFPOOL_WATCH_EVERY", 10000, 1, MOST_EVERY);
	wishes->calls = read_number("MBUFPOOL_WATCH_CALLS", 2, 0, MAX_CALLS);
	wishes->rx = read_number("MBUFPOOL_WATCH_RX", 1, 0, 1);
	wishes->old = read_number("MBUFPOOL_WATCH_OLD", 0, 0, MOST_SECONDS);
	wishes->idle = read_number("MBUFPOOL_WATCH_IDLE", 60, 0, MOST_SECONDS);
	wishes->seed = read_number("MBUFPOOL_WATCH_SEED", 0, 0, UINT64_MAX);
	if (wishes->seed == 0)
		wishes->seed = rte_rdtsc();
}

/* ---- the list ---- */

static pthread_mutex_t life_lock = PTHREAD_MUTEX_INITIALIZER; /* while a mempool comes or goes */
static pthread_mutex_t list_lock = PTHREAD_MUTEX_INITIALIZER;
static struct watch *first_watch;

void
watch_list_lock(void)
{
	pthread_mutex_lock(&list_lock);
}

void
watch_list_unlock(void)
{
	pthread_mutex_unlock(&list_lock);
}

struct watch *
watch_list_first(void)
{
	return first_watch;
}

static void tick(void *arg);

static void
set_alarm(void)
{
	if (rte_eal_alarm_set(TICK_US, tick, NULL) != 0)
		watch_log_ports("there is no alarm for them");
}

void
watch_list_add(struct watch *s)
{
	pthread_mutex_lock(&life_lock);
	watch_list_lock();
	s->next = first_watch;
	first_watch = s;
	watch_list_unlock();
	if (s->next == NULL)
		set_alarm();
	pthread_mutex_unlock(&life_lock);
}

/* (the alarm that runs waits for the list, so it is cancelled without its lock) */
void
watch_list_remove(struct watch *s)
{
	struct watch **at = &first_watch;
	int was_last;

	pthread_mutex_lock(&life_lock);
	watch_list_lock();
	while (*at != s)
		at = &(*at)->next;
	*at = s->next;
	was_last = first_watch == NULL;
	watch_list_unlock();
	if (was_last) {
		rte_eal_alarm_cancel(tick, NULL);
		watch_leave_ports();
	}
	pthread_mutex_unlock(&life_lock);
}

/* ---- what is out for long ---- */

static uint32_t
told_of(const struct watch *s, caller by)
{
	uint32_t i;

	for (i = 0; i < s->nb_told_old; i++)
		if (s->told_old[i].by == by)
			return s->told_old[i].objects;
	return 0;
}

/* Tells of each place the first that it got and that is out for long, and then whenever there are twice as
 * many. What is told of a place that has none any more begins anew. */
static void
look_at_old(struct watch *s)
{
	const uint64_t cycles = s->wishes.old * rte_get_tsc_hz(), now = rte_rdtsc();
	struct tally *found;
	uint32_t n, out, i;

	if (s->wishes.old == 0 || now < cycles)
		return;
	found = watch_count_out(s, now - cycles, &n, &out);
	for (i = 0; found != NULL && i < n; i++) {
		const uint32_t told = told_of(s, found[i].by);

		if (told == 0 || found[i].objects >= 2 * told)
			watch_log_old(s, &found[i]);
		else
			found[i].objects = told;
	}
	if (found == NULL)
		return;
	free(s->told_old);
	s->told_old = found;
	s->nb_told_old = n;
}

/* ---- whether anything is watched ---- */

static void
look_at_idle(struct watch *s)
{
	const uint64_t given = watch_given(s, 0) + watch_given(s, 1), now = rte_rdtsc(),
		       seen = watch_seen(s), packets = watch_seen_of_ports();

	if (s->idle_since == 0 || given != s->idle_given) {
		s->idle_since = now;
		s->idle_given = given;
		s->idle_seen = seen;
		s->idle_packets = packets;
		s->is_idle_told = 0;
	} else if (!s->is_idle_told && now - s->idle_since >= s->wishes.idle * rte_get_tsc_hz()) {
		s->is_idle_told = 1;
		watch_log_idle(s, seen - s->idle_seen, packets - s->idle_packets);
	}
}

/* ---- now and then ---- */

static void
look(struct watch *s)
{
	look_at_old(s);
	if (s->wishes.idle != 0)
		look_at_idle(s);
}

static void
tick(void *arg)
{
	static unsigned int ticks;
	const struct watch_wishes *rx = NULL;
	struct watch *s;

	RTE_SET_USED(arg);
	ticks++;
	watch_list_lock();
	for (s = first_watch; s != NULL; s = s->next) {
		if (!is_watching(s))
			continue;
		if (s->wishes.rx)
			rx = &s->wishes;
		if (ticks % TICKS_A_SECOND == 0)
			look(s);
	}
	if (rx != NULL)
		watch_look_at_ports(rx);
	if (first_watch != NULL)
		set_alarm();
	watch_list_unlock();
}
