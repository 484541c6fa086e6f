/* watch_cost.c - what the handler "mbufpool_watch" adds to the forwarding of packets: ports of net_null are
 * forwarded in turn, some thousand packets each, by one thread, whose processor time is measured. What else runs
 * on the machine meets all alike, so the median of the ratios of neighbours says what differs.
 *
 *     make watch_cost
 *     MBUFPOOL_WATCH_OVER=ring_mp_mc MBUFPOOL_WATCH_EVERY=10000 ./watch_cost [CACHE [ROUNDS]] --no-huge -m 128 \
 *             --no-pci -l 0 --vdev net_null0 --vdev net_null1 --vdev net_null2 --vdev net_null3 \
 *             -d $PWD/librte_mempool_mbufpool_watch.so
 *
 * The first three ports are on ring_mp_mc, the last is on the watch over it. The second against the first says
 * how far two differ that are alike; the third has a callback that does nothing, as DPDK calls any. */
#include <stdio.h>
#include <stdlib.h>
#include <string.h>
#include <time.h>

#include <rte_cycles.h>
#include <rte_eal.h>
#include <rte_errno.h>
#include <rte_ethdev.h>
#include <rte_mbuf.h>

#include "mempool_watch.h"

enum { AS_IT_IS, AGAIN, CALLED_BACK, WATCHED, PORTS };
#define MBUFS 4096
#define BURST 32
#define BURSTS 400 /* of a port in a round */
#define MOST 20000

static double ns[PORTS][MOST];

static double
now(void)
{
	struct timespec t;

	clock_gettime(CLOCK_THREAD_CPUTIME_ID, &t);
	return t.tv_sec * 1e9 + t.tv_nsec;
}

static void
start(uint16_t port, unsigned int cache)
{
	struct rte_mempool *mp;
	struct rte_eth_conf conf;
	char name[16];

	snprintf(name, sizeof(name), "packets%u", port);
	mp = rte_pktmbuf_pool_create_by_ops(name, MBUFS, cache, 0, RTE_MBUF_DEFAULT_BUF_SIZE, SOCKET_ID_ANY,
		port == WATCHED ? MBUFPOOL_WATCH_OPS : "ring_mp_mc");
	memset(&conf, 0, sizeof(conf));
	if (mp == NULL || rte_eth_dev_configure(port, 1, 1, &conf) != 0 ||
		rte_eth_rx_queue_setup(port, 0, 512, SOCKET_ID_ANY, NULL, mp) != 0 ||
		rte_eth_tx_queue_setup(port, 0, 512, SOCKET_ID_ANY, NULL) != 0 || rte_eth_dev_start(port) != 0)
		rte_panic("no port %u: %s\n", port, rte_strerror(rte_errno));
}

static uint16_t
nothing(uint16_t port, uint16_t queue, struct rte_mbuf **packets, uint16_t n, uint16_t most, void *arg)
{
	RTE_SET_USED(port);
	RTE_SET_USED(queue);
	RTE_SET_USED(packets);
	RTE_SET_USED(most);
	RTE_SET_USED(arg);
	return n;
}

/* (the watch adds its callback to each port that has started) */
static void
wait_for_callbacks(void)
{
	struct rte_mbuf *m[BURST];
	uint16_t port, n;

	for (n = rte_eth_rx_burst(WATCHED, 0, m, BURST); n > 0; n--)
		rte_pktmbuf_free(m[n - 1]);
	rte_delay_us_sleep(1000000);
	for (port = 0; port < WATCHED; port++)
		rte_eth_fp_ops[port].rxq.clbk[0] = NULL;
	if (rte_eth_add_rx_callback(CALLED_BACK, 0, nothing, NULL) == NULL)
		rte_panic("no callback: %s\n", rte_strerror(rte_errno));
}

static double
forward(uint16_t port)
{
	struct rte_mbuf *m[BURST];
	double begin = now();
	unsigned int i;
	uint16_t n;

	for (i = 0; i < BURSTS; i++) {
		n = rte_eth_rx_burst(port, 0, m, BURST);
		rte_eth_tx_burst(port, 0, m, n);
	}
	return (now() - begin) / (BURSTS * BURST);
}

static int
by_value(const void *a, const void *b)
{
	double x = *(const double *)a, y = *(const double *)b;

	return (x > y) - (x < y);
}

/* The median of a port's times, and of their ratios to the first port's. */
static void
tell(const char *name, unsigned int port, unsigned int rounds)
{
	static double ratio[MOST], time[MOST];
	unsigned int i;

	for (i = 0; i < rounds; i++) {
		time[i] = ns[port][i];
		ratio[i] = ns[port][i] / ns[0][i];
	}
	qsort(time, rounds, sizeof(*time), by_value);
	qsort(ratio, rounds, sizeof(*ratio), by_value);
	printf("%s: %.2f ns a packet, %.3f of as it is, %.3f to %.3f in the middle half\n", name, time[rounds / 2],
		ratio[rounds / 2], ratio[rounds / 4], ratio[rounds * 3 / 4]);
}

int
main(int argc, char **argv)
{
	unsigned int cache = 250, rounds = 3000, i, port;
	int words = 1;

	while (words < argc && argv[words][0] != '-')
		words++;
	if (words > 1)
		cache = strtoul(argv[1], NULL, 10);
	if (words > 2)
		rounds = RTE_MIN(strtoul(argv[2], NULL, 10), (unsigned long)MOST);
	argv[words - 1] = argv[0];
	if (rte_eal_init(argc - words + 1, argv + words - 1) < 0 || rte_eth_dev_count_avail() < PORTS)
		return 2;
	for (port = 0; port < PORTS; port++)
		start(port, cache);
	wait_for_callbacks();
	for (i = 0; i < rounds; i++)
		for (port = 0; port < PORTS; port++)
			ns[port][i] = forward(port);
	printf("cache of %u, %u rounds\n", cache, rounds);
	tell("as it is", AS_IT_IS, rounds);
	tell("again", AGAIN, rounds);
	tell("with a callback that does nothing", CALLED_BACK, rounds);
	tell("watched", WATCHED, rounds);
	fflush(stdout);
	_Exit(0);
}
