/* dump_handlers.h - the names of another process's mempool handlers. */
#ifndef DUMP_HANDLERS_H
#define DUMP_HANDLERS_H
#include <stdint.h>
#include <sys/types.h>

#include <rte_mempool.h>

struct handlers {
	uint32_t count;
	char names[RTE_MEMPOOL_MAX_OPS_IDX][RTE_MEMPOOL_OPS_NAMESIZE];
};

/* Reads them out of the memory of a process. Where that can't be read, there are none. */
void handlers_read(struct handlers *h, pid_t pid);

/* The name of the handler with this index, or NULL. */
const char *handlers_name(const struct handlers *h, int32_t index);
#endif
