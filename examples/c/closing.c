/* closing.c - a pool is closed, and tells where each of its elements is: those on the common stack,
 * in a worker's cache, in packets and on desks. A second pool is closed after one of its workers was
 * ended with a packet and a cache: the elements that are lost with it are told. So are those of a packet
 * that was sent in a third pool, and that nobody received.
 *
 *     make closing && ./closing */
#include <stdio.h>
#include <stdlib.h>

#include "mbufpool.h"

#define WORKERS 3
#define POPULATION 24
#define CACHE 4

/* Ends the program where a call is refused. */
static void must(uint32_t status, const char *call)
{
	if (status == 0)
		return;
	printf("%s was refused: %s\n", call, mbufpool_strerror(status));
	exit(1);
}

static void open_pool(struct mbufpool_worker *worker)
{
	struct mbufpool_limits limits = { POPULATION, CACHE, WORKERS, 2, 2048, 65535, 64 };

	must(mbufpool_worker_open(&limits, worker, WORKERS), "open");
}

/* Each worker gets a packet of some bytes, and a cache; the first clones its own, and lays the clone
 * on a desk. */
static void use_pool(struct mbufpool_worker *worker)
{
	struct mbufpool_packet packet, clone;
	uint32_t length;
	uint16_t w;

	for (w = 0; w < WORKERS; w++) {
		must(mbufpool_worker_alloc(&worker[w], &packet), "alloc");
		must(mbufpool_worker_append(&worker[w], packet.slot, (uint16_t)(60 + w), &length), "append");
		if (w > 0)
			continue;
		must(mbufpool_worker_clone(&worker[0], packet.slot, &clone), "clone");
		must(mbufpool_worker_offer(&worker[0], clone.slot, 1), "offer");
	}
}

/* Prints the statement, in room of its length. */
static void print_statement(struct mbufpool_statement *ending)
{
	size_t length = mbufpool_statement_text(ending, NULL, 0);
	char *text = (char *)malloc(length);

	if (length == 0 || text == NULL)
		must(MBUFPOOL_NO_MEMORY, "the statement");
	mbufpool_statement_text(ending, text, length);
	fwrite(text, 1, length, stdout);
	free(text);
}

/* Whether the counts are those of a pool of which nothing is missing. */
static int are_whole(const struct mbufpool_counts *counts)
{
	return counts->population == POPULATION &&
		counts->available + counts->in_use == counts->population;
}

/* Sends a packet of two elements, which it tells ascending, in a parcel that nobody receives. */
static void send_away(struct mbufpool_worker *worker, uint32_t *element)
{
	struct { struct mbufpool_parcel parcel; struct mbufpool_parcel_segment segment[2]; } away;
	struct mbufpool_packet head, tail;

	must(mbufpool_worker_alloc(worker, &head), "alloc");
	must(mbufpool_worker_alloc(worker, &tail), "alloc");
	must(mbufpool_worker_chain(worker, head.slot, tail.slot), "chain");
	away.parcel.segments = 0;
	must(mbufpool_worker_send(worker, head.slot, &away.parcel, 2), "send");
	element[head.element > tail.element] = head.element;
	element[head.element < tail.element] = tail.element;
}

/* Closes a pool that can't be settled, and prints which elements are lost. Returns how many. */
static size_t close_with_loss(struct mbufpool_worker *worker, const char *with,
	struct mbufpool_statement *ending, uint32_t *lost)
{
	struct mbufpool_counts counts;
	size_t n, k;

	must(mbufpool_worker_close(worker, WORKERS, ending), "close");
	n = mbufpool_statement_lost(ending, lost, POPULATION);
	printf("lost with %s:", with);
	for (k = 0; k < n; k++)
		printf(" %u", (unsigned)lost[k]);
	printf("\n");
	return mbufpool_statement_counts(ending, &counts) == MBUFPOOL_STRANGER ? n : 0;
}

int main(void)
{
	struct mbufpool_worker worker[WORKERS] = { MBUFPOOL_NONE };
	struct mbufpool_statement ending = MBUFPOOL_NONE;
	struct mbufpool_counts counts;
	uint32_t lost[POPULATION], sent[2];

	open_pool(worker);
	use_pool(worker);
	if (mbufpool_worker_close(worker, 1, &ending) != MBUFPOOL_IN_USE)
		return 1;
	must(mbufpool_worker_close(worker, WORKERS, &ending), "close");
	must(mbufpool_statement_counts(&ending, &counts), "counts");
	printf("of %lu elements %lu are available, %lu in use\n", (unsigned long)counts.population,
		(unsigned long)counts.available, (unsigned long)counts.in_use);
	print_statement(&ending);
	if (!are_whole(&counts) || mbufpool_statement_lost(&ending, lost, POPULATION) != 0)
		return 1;

	open_pool(worker);
	use_pool(worker);
	mbufpool_worker_end(&worker[1]);
	if (close_with_loss(worker, "worker 2", &ending, lost) == 0)
		return 1;

	open_pool(worker);
	use_pool(worker);
	send_away(&worker[2], sent);
	if (close_with_loss(worker, "a parcel", &ending, lost) != 2 || lost[0] != sent[0] ||
		lost[1] != sent[1])
		return 1;
	mbufpool_statement_end(&ending);
	return 0;
}
