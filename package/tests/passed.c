/* passed.c - of an installed library: that it is of its headers' version, and that of a pool of values
 * one worker gets what another has put and flushed, each value once. C99 and C++.
 *
 *     cc passed.c $(pkg-config --cflags --libs mbufpool) && ./a.out */
#include <stdio.h>

#include <mbufpool.h>

#define VALUES 1000
#define WORKERS 2
#define TRIES 1000

static int times[VALUES]; /* how often each value was got */

/* Puts all values by the first worker, and gets them by the second. Returns the first refusal. */
static uint32_t pass_all(struct mbufpool_pool *first, struct mbufpool_pool *second)
{
	uint64_t list[VALUES];
	uint32_t status;
	int k;

	for (k = 0; k < VALUES; k++)
		list[k] = k;
	status = mbufpool_pool_put(first, list, VALUES);
	if (status == 0)
		status = mbufpool_pool_flush(first);
	if (status == 0)
		status = mbufpool_pool_get(second, list, VALUES);
	for (k = 0; status == 0 && k < VALUES; k++)
		if (list[k] < VALUES)
			times[list[k]]++;
	return status;
}

int main(void)
{
	struct mbufpool_pool first = MBUFPOOL_NONE, second = MBUFPOOL_NONE;
	uint32_t version = mbufpool_version(), status;
	int k, once = 0;

	if (version != MBUFPOOL_VERSION_NUMBER(MBUFPOOL_VERSION_MAJOR, MBUFPOOL_VERSION_MINOR)) {
		printf("passed: headers of %s, a library of %u\n", MBUFPOOL_VERSION, version);
		return 1;
	}
	status = mbufpool_pool_open(VALUES, WORKERS, TRIES, &first);
	if (status == 0)
		status = mbufpool_pool_split(&first, &second);
	if (status == 0)
		status = pass_all(&first, &second);
	mbufpool_pool_end(&second);
	mbufpool_pool_end(&first);
	if (status != 0) {
		printf("passed: %s\n", mbufpool_strerror(status));
		return 1;
	}
	for (k = 0; k < VALUES; k++)
		once += times[k] == 1;
	printf("passed: version %s, %d of %d values, each once\n", MBUFPOOL_VERSION, once, VALUES);
	return once != VALUES;
}
