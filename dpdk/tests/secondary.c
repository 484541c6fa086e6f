/* secondary.c - a secondary process that gets from a mempool of the primary's, puts into it, counts it,
 * and makes one of its own on the same handler. It says what came of each.
 *
 *     make secondary
 *     ./secondary POOL --proc-type=secondary --file-prefix PREFIX [-d PLUGIN] */
#include <stdio.h>
#include <stdlib.h>
#include <string.h>

#include <rte_eal.h>
#include <rte_errno.h>
#include <rte_mempool.h>

static void
say(const char *what, int ret)
{
	printf("%s: %s\n", what, ret == 0 ? "done" : rte_strerror(-ret));
}

static void
note_object(struct rte_mempool *mp, void *opaque, void *object, unsigned int index)
{
	RTE_SET_USED(mp);
	if (index == 0)
		*(void **)opaque = object;
}

/* (past the mempool's cache, so that each comes to the handler) */
static void
use(struct rte_mempool *mp)
{
	void *object = NULL, *got;

	rte_mempool_obj_iter(mp, note_object, &object);
	say("get", rte_mempool_generic_get(mp, &got, 1, NULL));
	say("put", rte_mempool_ops_enqueue_bulk(mp, &object, 1));
	printf("count: %u\n", rte_mempool_get_ops(mp->ops_index)->get_count(mp));
}

static void
make_own(const char *ops)
{
	struct rte_mempool *mp = rte_mempool_create_empty("own", 63, 64, 0, 0, SOCKET_ID_ANY, 0);
	int ret;

	if (mp == NULL || rte_mempool_set_ops_byname(mp, ops, NULL) != 0)
		rte_exit(EXIT_FAILURE, "there is no mempool to fill on %s\n", ops);
	ret = rte_mempool_populate_default(mp);
	say("a mempool of its own", RTE_MIN(ret, 0));
	rte_mempool_free(mp);
}

int
main(int argc, char **argv)
{
	struct rte_mempool *mp;

	if (argc < 2 || rte_eal_init(argc - 1, argv + 1) < 0)
		rte_exit(EXIT_FAILURE, "usage: secondary POOL --proc-type=secondary [EAL options]\n");
	mp = rte_mempool_lookup(argv[1]);
	if (mp == NULL)
		rte_exit(EXIT_FAILURE, "the primary has no mempool %s\n", argv[1]);
	use(mp);
	make_own(rte_mempool_get_ops(mp->ops_index)->name);
	return fflush(stdout) != 0 || rte_eal_cleanup() != 0;
}
