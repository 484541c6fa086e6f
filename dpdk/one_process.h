/* one_process.h - what a handler does whose free objects lie in memory of one process: the primary, which
 * makes its mempools.
 *
 * A mempool's calls go by a table of handlers, which each process has for itself. A handler stands there
 * with the calls of this file, which refuse, until a mempool is made in the process. So a secondary that
 * looks up a mempool of the primary's is refused, and no get or put of the primary asks for it.
 *
 * One file of a plugin includes it: a refusal is told once for each file that does. */
#ifndef MBUFPOOL_ONE_PROCESS_H
#define MBUFPOOL_ONE_PROCESS_H
#include <errno.h>

#include <rte_common.h>
#include <rte_eal.h>
#include <rte_log.h>
#include <rte_mempool.h>

/* Whether this process is a secondary, which can use no mempool on this handler. The first time that is
 * logged. */
static __rte_unused int
is_of_primary_alone(const struct rte_mempool *mp)
{
	static int is_told;

	if (rte_eal_process_type() == RTE_PROC_PRIMARY)
		return 0;
	if (!__atomic_exchange_n(&is_told, 1, __ATOMIC_RELAXED))
		RTE_LOG(ERR, MEMPOOL, "%s: mempool %s can't be used by a secondary process: what is free "
			"there lies in memory of the primary's own\n",
			rte_mempool_get_ops(mp->ops_index)->name, mp->name);
	return 1;
}

/* The calls before a mempool is made here: of the primary's, or of one that has no objects yet. */
static __rte_unused int
put_unmade(struct rte_mempool *mp, void *const *objects, unsigned int n)
{
	RTE_SET_USED(objects);
	RTE_SET_USED(n);
	return is_of_primary_alone(mp) ? -ENOTSUP : -ENOBUFS;
}

static __rte_unused int
get_unmade(struct rte_mempool *mp, void **objects, unsigned int n)
{
	RTE_SET_USED(objects);
	RTE_SET_USED(n);
	return is_of_primary_alone(mp) ? -ENOTSUP : -ENOBUFS;
}

static __rte_unused unsigned int
count_unmade(const struct rte_mempool *mp)
{
	is_of_primary_alone(mp);
	return 0;
}

/* A mempool is made here: from now on its handler's own calls stand in the table. */
static __rte_unused void
set_calls(const struct rte_mempool *mp, rte_mempool_enqueue_t put, rte_mempool_dequeue_t get,
	rte_mempool_get_count count)
{
	struct rte_mempool_ops *ops = rte_mempool_get_ops(mp->ops_index);

	__atomic_store_n(&ops->enqueue, put, __ATOMIC_RELEASE);
	__atomic_store_n(&ops->dequeue, get, __ATOMIC_RELEASE);
	__atomic_store_n(&ops->get_count, count, __ATOMIC_RELEASE);
}

#endif
