/* dumped.c - of an installed dump: a mempool of mbufs is dumped, with two packets of which the dump is
 * told of one, so that an audit names the other lost.
 *
 *     cc dumped.c -lmbufpool_dump $(pkg-config --cflags --libs libdpdk)
 *     ./a.out OPS FILE --no-huge -m 64 --no-pci -l 0 [-d PLUGIN] */
#include <stdio.h>

#include <rte_eal.h>
#include <rte_mbuf.h>

#include <mbufpool_dump.h>

int main(int argc, char **argv)
{
	struct rte_mbuf *known, *lost;
	struct rte_mempool *mp;
	const char *ops, *file;
	FILE *out;
	int ret;

	if (argc < 3)
		return 2;
	ops = argv[1];
	file = argv[2];
	argv[2] = argv[0];
	if (rte_eal_init(argc - 2, argv + 2) < 0)
		return 2;
	mp = rte_pktmbuf_pool_create_by_ops("pool", 63, 0, 0, 2048, SOCKET_ID_ANY, ops);
	known = mp == NULL ? NULL : rte_pktmbuf_alloc(mp);
	lost = mp == NULL ? NULL : rte_pktmbuf_alloc(mp);
	out = fopen(file, "w");
	if (known == NULL || lost == NULL || out == NULL) {
		printf("dumped: no pool, no mbuf, or no file\n");
		return 2;
	}
	ret = mbufpool_dump_held(out, mp, &known, 1);
	fclose(out);
	printf("lost %u\n", mbufpool_elem_of(mp, lost));
	rte_pktmbuf_free(known);
	rte_pktmbuf_free(lost);
	return ret != 0;
}
