/* double_free.c - an mbuf is freed twice; are two allocs then given the same one?
 *
 *     make double_free
 *     ./double_free OPS --no-huge -m 64 --no-pci [-d PLUGIN] */
#include <stdio.h>

#include <rte_eal.h>
#include <rte_errno.h>
#include <rte_mbuf.h>

int
main(int argc, char **argv)
{
	struct rte_mempool *mp;
	struct rte_mbuf *kept, *m, *a, *b;
	const char *ops = argv[1];

	argv[1] = argv[0];
	if (argc < 2 || rte_eal_init(argc - 1, argv + 1) < 0)
		return 2;
	mp = rte_pktmbuf_pool_create_by_ops("pool", 63, 0, 0, 2048, SOCKET_ID_ANY, ops);
	if (mp == NULL) {
		printf("%s: no pool: %s\n", ops, rte_strerror(rte_errno));
		return 2;
	}
	kept = rte_pktmbuf_alloc(mp);
	m = rte_pktmbuf_alloc(mp);
	rte_pktmbuf_free(m);
	rte_pktmbuf_free(m);
	printf("%s: %u available, 62 are free; ", ops, rte_mempool_avail_count(mp));
	a = rte_pktmbuf_alloc(mp);
	b = rte_pktmbuf_alloc(mp);
	printf("two allocs are given %s\n", a == b ? "the same mbuf" : "two mbufs");
	rte_pktmbuf_free(kept);
	return a == b;
}
