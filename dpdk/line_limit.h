/* line_limit.h - what limits the lines of one kind that a mempool logs: ten a second. */
#ifndef MBUFPOOL_LINE_LIMIT_H
#define MBUFPOOL_LINE_LIMIT_H
#include <stdint.h>
#include <time.h>

#include <rte_common.h>

#define LINES_A_SECOND 10
#define LINE_BITS 8

struct line_limit {
	uint64_t window;   /* a second, and behind it in 8 bits how many lines it has had */
	uint64_t left_out; /* since the last line that told it */
};

/* Takes one of this second's lines, if there is one. What has none is counted. */
static __rte_unused int
take_line(struct line_limit *limit)
{
	uint64_t seen = __atomic_load_n(&limit->window, __ATOMIC_RELAXED), now, next;
	struct timespec time;

	clock_gettime(CLOCK_MONOTONIC, &time);
	now = (uint64_t)time.tv_sec << LINE_BITS;
	do {
		next = seen >> LINE_BITS == now >> LINE_BITS ? seen + 1 : now + 1;
		if (next - now > LINES_A_SECOND) {
			__atomic_fetch_add(&limit->left_out, 1, __ATOMIC_RELAXED);
			return 0;
		}
	} while (!__atomic_compare_exchange_n(
		&limit->window, &seen, next, 0, __ATOMIC_RELAXED, __ATOMIC_RELAXED));
	return 1;
}

/* How many lines were left out since this was asked. */
static __rte_unused uint64_t
take_left_out(struct line_limit *limit)
{
	if (__atomic_load_n(&limit->left_out, __ATOMIC_RELAXED) == 0)
		return 0;
	return __atomic_exchange_n(&limit->left_out, 0, __ATOMIC_RELAXED);
}

#endif
