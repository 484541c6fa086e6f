/* library_causes.h - the refusals of mbufpool.h that a mempool shouldn't meet, as both handlers log them. */
#ifndef MBUFPOOL_LIBRARY_CAUSES_H
#define MBUFPOOL_LIBRARY_CAUSES_H
#include <stdint.h>

#include "mbufpool.h"

/* A cause's name as the header has it, and what to do then. */
struct cause_text {
	const char *name, *advice;
};

/* Of MBUFPOOL_NO_MAGAZINE the advice is the handler's own. */
static inline struct cause_text
text_of_cause(uint32_t cause, const char *of_no_magazine)
{
	switch (cause) {
	case MBUFPOOL_HEAD_SPENT:
		return (struct cause_text){ "MBUFPOOL_HEAD_SPENT",
			"its magazines were exchanged as often as they can be: a new mempool is needed" };
	case MBUFPOOL_NO_MAGAZINE:
		return (struct cause_text){ "MBUFPOOL_NO_MAGAZINE", of_no_magazine };
	case MBUFPOOL_STRANGER:
		return (struct cause_text){ "MBUFPOOL_STRANGER",
			"the handle of its worker was overwritten" };
	default:
		return (struct cause_text){ "no cause of such a call", "the library isn't its header's" };
	}
}
#endif
