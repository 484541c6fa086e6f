/* dump_magazines.c - what lies in the magazines of a mempool on the handler "mbufpool", read where it
 * lies: see dump_view.h and pool_magazines.h.
 *
 * They are in memory of the process that made the mempool. A secondary reads them out of that process,
 * which it finds by the lock that a primary has on its configuration, as a debugger does: nothing is
 * written, and the process needn't stop. */
#ifndef _GNU_SOURCE
#define _GNU_SOURCE
#endif
#include <errno.h>
#include <fcntl.h>
#include <inttypes.h>
#include <limits.h>
#include <stdlib.h>
#include <string.h>
#include <sys/uio.h>
#include <unistd.h>

#include <rte_eal.h>

#include "dump_view.h"

/* ---- the memory of the process ---- */

/* The primary of this secondary process, or 0 where it can't be told: it has a lock on the file. (a
 * primary that opened this file itself would give up its lock as it closes it) */
static pid_t
primary_of_this(void)
{
	struct flock lock = {.l_type = F_WRLCK, .l_whence = SEEK_SET};
	char path[PATH_MAX];
	int fd, ret;

	snprintf(path, sizeof(path), "%s/config", rte_eal_get_runtime_dir());
	fd = open(path, O_RDONLY | O_CLOEXEC);
	if (fd < 0)
		return 0;
	ret = fcntl(fd, F_GETLK, &lock);
	close(fd);
	return ret == 0 && lock.l_type != F_UNLCK && lock.l_pid > 0 ? lock.l_pid : 0;
}

static int
read_memory(const struct view *v, uint64_t at, void *out, size_t bytes)
{
	struct iovec here = {out, bytes}, there = {(void *)(uintptr_t)at, bytes};

	if (v->owner == 0)
		memcpy(out, (const void *)(uintptr_t)at, bytes);
	else if (process_vm_readv(v->owner, &here, 1, &there, 1, 0) != (ssize_t)bytes)
		return errno == EPERM ? -EPERM : -EFAULT;
	return 0;
}

/* ---- which pool it is ---- */

/* Whether what a mempool's pool_data points to can be looked at: of a primary's own process, that of a
 * mempool on this handler; in a secondary what the primary shares. */
static int
can_be_looked_at(const struct rte_mempool *mp)
{
	uintptr_t at = (uintptr_t)mp->pool_data;

	if (rte_eal_process_type() != RTE_PROC_PRIMARY)
		return at % sizeof(uint64_t) == 0 && dump_is_shared_at(at) &&
		       dump_is_shared_at(at + sizeof(struct pool_magazines) - 1);
	return at != 0 && mp->ops_index >= 0 && mp->ops_index < RTE_MEMPOOL_MAX_OPS_IDX &&
	       strcmp(rte_mempool_get_ops(mp->ops_index)->name, "mbufpool") == 0;
}

void
dump_magazines_recognise(struct view *v)
{
	const struct rte_mempool *mp = v->mp;
	struct pool_magazines *of = &v->magazines;

	if (!can_be_looked_at(mp))
		return;
	memcpy(of, mp->pool_data, sizeof(*of));
	if (of->magic != MAGAZINES_MAGIC || of->count > MOST_MAGAZINES ||
	    of->bytes != sizeof(struct magazine))
		return;
	v->owner = rte_eal_process_type() == RTE_PROC_PRIMARY ? 0 : primary_of_this();
	if (v->owner == 0 && rte_eal_process_type() != RTE_PROC_PRIMARY)
		return;
	v->kind = COMMON_MAGAZINES;
	v->capacity = of->count * MOST_ROUNDS + mp->size;
}

/* ---- what is in them ---- */

int
dump_magazines_take_memory(struct view *v)
{
	if (v->kind != COMMON_MAGAZINES)
		return 0;
	v->copied = calloc(v->magazines.count + 1, sizeof(*v->copied));
	return v->copied == NULL ? -ENOMEM : read_memory(v, v->magazines.address, v->copied,
							  sizeof(*v->copied));
}

/* Adds what one has, from its top. */
static void
list_magazine(struct view *v, uint64_t number)
{
	const struct magazine *m = &v->copied[number];
	uint64_t n = RTE_MIN(m->count, (uint64_t)MOST_ROUNDS);

	if (n < m->count)
		snprintf(v->unrest, sizeof(v->unrest),
			 "its magazine %" PRIu64 " says that it has %" PRIu64 " objects", number, m->count);
	while (n > 0)
		v->common[v->nb_common++] = (void *)(uintptr_t)m->objects[--n];
}

/* Adds what the handler keeps beside them. */
static int
list_kept(struct view *v)
{
	const struct pool_magazines *now = v->mp->pool_data;
	uint64_t told = __atomic_load_n(&now->nb_kept, __ATOMIC_ACQUIRE),
		 n = RTE_MIN(told, (uint64_t)v->mp->size);
	int ret;

	if (n < told)
		snprintf(v->unrest, sizeof(v->unrest), "it says that it keeps %" PRIu64 " objects", told);
	ret = n == 0 ? 0 : read_memory(v, v->magazines.kept, v->common + v->nb_common, n * sizeof(void *));
	if (ret == 0)
		v->nb_common += n;
	return ret;
}

int
dump_magazines_copy(struct view *v)
{
	uint64_t k, bytes = v->magazines.count * sizeof(*v->copied);
	int ret = read_memory(v, v->magazines.address, v->copied, bytes);

	v->nb_common = 0;
	v->unrest[0] = 0;
	if (ret != 0)
		return ret;
	for (k = 0; k < v->magazines.count; k++)
		list_magazine(v, k);
	return list_kept(v);
}

uint32_t
dump_magazines_count(const struct view *v)
{
	const struct pool_magazines *now = v->mp->pool_data;
	uint64_t all = now->nb_kept, k;
	struct magazine *copied = calloc(v->magazines.count + 1, sizeof(*copied));

	if (copied == NULL || read_memory(v, v->magazines.address, copied,
					  v->magazines.count * sizeof(*copied)) != 0)
		all = UINT32_MAX;
	for (k = 0; all != UINT32_MAX && k < v->magazines.count; k++)
		all += RTE_MIN(copied[k].count, (uint64_t)MOST_ROUNDS);
	free(copied);
	return RTE_MIN(all, (uint64_t)UINT32_MAX);
}
