/* handlers.c - prints the names of DPDK's mempool handlers, those of plugins among them, a line for each.
 *
 *     cc handlers.c $(pkg-config --cflags --libs libdpdk)
 *     ./a.out --no-huge -m 64 --no-pci -l 0 [-d PLUGIN] */
#include <stdio.h>

#include <rte_eal.h>
#include <rte_mempool.h>

int main(int argc, char **argv)
{
	unsigned int i;

	if (rte_eal_init(argc, argv) < 0)
		return 1;
	for (i = 0; i < rte_mempool_ops_table.num_ops; i++)
		printf("handler %s\n", rte_mempool_ops_table.ops[i].name);
	return 0;
}
