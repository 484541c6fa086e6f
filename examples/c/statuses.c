/* statuses.c - each status of the library with its meaning, as mbufpool_strerror says it: each number of
 * enum mbufpool_refusal has a text of its own, and any other number is said to be none.
 *
 *     make statuses && ./statuses */
#include <stdio.h>
#include <string.h>

#include "mbufpool.h"

#define MOST 64 /* numbers that are looked at from 0 on */

/* Whether a number is one of the enum. (a number that isn't named here is a compiler's warning) */
static int is_refusal(uint32_t status)
{
	if (status > 31)
		return 0;
	switch ((enum mbufpool_refusal)status) {
	case MBUFPOOL_BAD_POOL:
	case MBUFPOOL_NO_MEMORY:
	case MBUFPOOL_NO_ENTRIES:
	case MBUFPOOL_CONTENDED:
	case MBUFPOOL_HEAD_SPENT:
	case MBUFPOOL_REF_SPENT:
	case MBUFPOOL_TOO_MANY_SEGS:
	case MBUFPOOL_NO_ROOM:
	case MBUFPOOL_TOO_SHORT:
	case MBUFPOOL_NOT_DIRECT:
	case MBUFPOOL_NOT_INDIRECT:
	case MBUFPOOL_IN_USE:
	case MBUFPOOL_NO_SUCH_PACKET:
	case MBUFPOOL_PACKETS_FULL:
	case MBUFPOOL_DESK_TAKEN:
	case MBUFPOOL_DESK_EMPTY:
	case MBUFPOOL_NO_SUCH_DESK:
	case MBUFPOOL_STRANGER:
	case MBUFPOOL_SAME_PACKET:
	case MBUFPOOL_MISUSED:
	case MBUFPOOL_NOT_OUT:
	case MBUFPOOL_NO_MAGAZINE:
	case MBUFPOOL_NO_PART:
		return 1;
	}
	return 0;
}

/* Whether a status' text is its own: "name: meaning" on one short line, and no other status has it. */
static int has_own_text(uint32_t status)
{
	const char *text = mbufpool_strerror(status);
	uint32_t other;

	if (strstr(text, ": ") == NULL || strlen(text) > 90 || strchr(text, '\n') != NULL)
		return 0;
	for (other = 0; other < MOST; other++)
		if (other != status && strcmp(text, mbufpool_strerror(other)) == 0)
			return 0;
	return 1;
}

/* Whether a number is said to be what it is. */
static int is_right(uint32_t status)
{
	if (status == 0)
		return strcmp(mbufpool_strerror(0), "success") == 0;
	if (is_refusal(status))
		return has_own_text(status);
	return strcmp(mbufpool_strerror(status), "unknown status") == 0;
}

int main(void)
{
	struct mbufpool_pool pool = MBUFPOOL_NONE;
	uint32_t status, wrong = 0;
	uint64_t value;
	char version[32];

	for (status = 0; status < MOST; status++) {
		if (status == 0 || is_refusal(status))
			printf("%2u  %s\n", (unsigned)status, mbufpool_strerror(status));
		wrong += !is_right(status);
	}
	wrong += !is_right(UINT32_MAX);
	snprintf(version, sizeof(version), "%d.%d", MBUFPOOL_VERSION_MAJOR, MBUFPOOL_VERSION_MINOR);
	wrong += strcmp(version, MBUFPOOL_VERSION) != 0;
	wrong += mbufpool_version() != MBUFPOOL_VERSION_NUMBER(MBUFPOOL_VERSION_MAJOR, MBUFPOOL_VERSION_MINOR);
	status = mbufpool_pool_get_one(&pool, &value);
	printf("version %s; a get by a handle with zeros: %s\n", MBUFPOOL_VERSION, mbufpool_strerror(status));
	return wrong != 0 || status != MBUFPOOL_STRANGER;
}
