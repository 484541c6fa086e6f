/* watch_ports.c - packets that a port receives on the handler "mbufpool_watch": each that is copied into a
 * watched mbuf has to be what was sent, whatever it has; ports come and go.
 *
 *     make watch_ports
 *     MBUFPOOL_WATCH_EVERY=1 ./watch_ports --no-huge -m 64 --no-pci -l 0 --vdev net_ring0 \
 *             -d $PWD/librte_mempool_mbufpool_watch.so
 *
 * Each packet is one in one, so each has its turn. What is sent to a port of net_ring0, that it receives. */
#define _GNU_SOURCE
#include <stdio.h>
#include <stdlib.h>
#include <string.h>

#include <rte_cycles.h>
#include <rte_dev.h>
#include <rte_eal.h>
#include <rte_errno.h>
#include <rte_ethdev.h>
#include <rte_log.h>
#include <rte_mbuf.h>

#include "mempool_watch.h"

#define MBUFS 1023
#define ROOM 2176
#define PRIVATE 24
#define WAIT_MS 5000
#define ROUNDS 50

static struct rte_mempool *pool;
static unsigned int wrong, nb_lines;

#define WANT(what)                                                                     \
	do {                                                                           \
		if (!(what)) {                                                         \
			printf("FAULT: line %d: not %s\n", __LINE__, #what);           \
			wrong++;                                                       \
		}                                                                      \
	} while (0)

static ssize_t
count_lines(void *cookie, const char *text, size_t n)
{
	RTE_SET_USED(cookie);
	if (memmem(text, n, "isn't out", 9) != NULL || memmem(text, n, "after its free", 14) != NULL) {
		nb_lines++;
		fwrite(text, 1, n, stdout);
	}
	return n;
}

/* ---- the port ---- */

static void
start(uint16_t port)
{
	struct rte_eth_conf conf;

	memset(&conf, 0, sizeof(conf));
	WANT(rte_eth_dev_configure(port, 1, 1, &conf) == 0);
	WANT(rte_eth_rx_queue_setup(port, 0, 64, SOCKET_ID_ANY, NULL, pool) == 0);
	WANT(rte_eth_tx_queue_setup(port, 0, 64, SOCKET_ID_ANY, NULL) == 0);
	WANT(rte_eth_dev_start(port) == 0);
}

static struct rte_mbuf *
pass(uint16_t port, struct rte_mbuf *m)
{
	struct rte_mbuf *got = NULL;

	WANT(rte_eth_tx_burst(port, 0, &m, 1) == 1);
	WANT(rte_eth_rx_burst(port, 0, &got, 1) == 1);
	return got;
}

/* What a port receives comes from the program's pool: mbufs that aren't watched yet, though each that is got
 * is, as long as there are some. */
static struct {
	struct rte_mbuf *all[MBUFS];
	unsigned int n;
} stock;

static void
fill_stock(void)
{
	struct rte_mbuf *watched[MBUFS], *m;
	unsigned int n = 0;

	while ((m = rte_pktmbuf_alloc(pool)) != NULL)
		if (m->pool == pool)
			stock.all[stock.n++] = m;
		else
			watched[n++] = m;
	rte_pktmbuf_free_bulk(watched, n);
}

static void
empty_stock(void)
{
	rte_pktmbuf_free_bulk(stock.all, stock.n);
	stock.n = 0;
}

static struct rte_mbuf *
new_packet(void)
{
	struct rte_mbuf *m;

	if (stock.n == 0)
		fill_stock();
	if (stock.n == 0)
		rte_panic("no mbuf\n");
	m = stock.all[--stock.n];
	rte_pktmbuf_reset(m);
	WANT(rte_pktmbuf_append(m, 100) != NULL);
	memset(rte_pktmbuf_mtod(m, char *), 5, 100);
	return m;
}

/* Waits until the packets of a port are watched; says whether they are. */
static int
is_watched(uint16_t port)
{
	struct rte_mbuf *m;
	unsigned int k;
	int is = 0;

	for (k = 0; k < WAIT_MS && !is; k++) {
		m = pass(port, new_packet());
		is = m->pool != pool;
		rte_pktmbuf_free(m);
		rte_delay_us_sleep(1000);
	}
	return is;
}

/* ---- packets ---- */

/* All of a header that is to stay, by bytes: but for the buffer and the pool. */
static void
read_header(const struct rte_mbuf *m, struct rte_mbuf *out)
{
	memcpy(out, m, sizeof(*out));
	out->buf_addr = NULL;
	out->pool = NULL;
	rte_mbuf_iova_set(out, 0);
}

static struct rte_mbuf *
packet_with_all(unsigned int k)
{
	struct rte_mbuf *m = new_packet();
	unsigned int i;

	if (k % 3 == 1)
		rte_pktmbuf_prepend(m, 14 + k % 100);
	if (k % 5 == 1)
		rte_pktmbuf_append(m, k * 31 % 1800);
	for (i = 0; i < m->data_len; i++)
		rte_pktmbuf_mtod(m, unsigned char *)[i] = i * 7 + k;
	memset(rte_mbuf_to_priv(m), k, PRIVATE);
	m->port = 3;
	m->ol_flags = RTE_MBUF_F_RX_VLAN | RTE_MBUF_F_RX_RSS_HASH | RTE_MBUF_F_RX_IP_CKSUM_GOOD;
	m->packet_type = RTE_PTYPE_L2_ETHER | RTE_PTYPE_L3_IPV4;
	m->vlan_tci = 100 + k;
	m->vlan_tci_outer = 200 + k;
	m->hash.rss = 0x12345678 + k;
	m->hash.fdir.hi = 99;
	m->tx_offload = 0x0102030405;
	m->timesync = 7;
	for (i = 0; i < RTE_DIM(m->dynfield1); i++)
		m->dynfield1[i] = k + i;
	return m;
}

/* A packet of one mbuf goes over with all that it has. */
static void
pass_alone(uint16_t port, unsigned int k)
{
	struct rte_mbuf *m = packet_with_all(k), *got, was, is;
	char data[ROOM], private[PRIVATE];

	read_header(m, &was);
	memcpy(data, rte_pktmbuf_mtod(m, char *), m->data_len);
	memcpy(private, rte_mbuf_to_priv(m), PRIVATE);
	got = pass(port, m);
	read_header(got, &is);
	WANT(got != m && got->pool != pool && memcmp(&was, &is, sizeof(was)) == 0);
	WANT(got->buf_addr == (char *)(got + 1) + PRIVATE && rte_mbuf_iova_get(got) != 0);
	WANT(memcmp(data, rte_pktmbuf_mtod(got, char *), got->data_len) == 0);
	WANT(memcmp(private, rte_mbuf_to_priv(got), PRIVATE) == 0);
	rte_pktmbuf_free(got);
}

/* Of a chain the first mbuf goes over, and has the others behind it. */
static void
pass_chain(uint16_t port)
{
	struct rte_mbuf *m = new_packet(), *second = new_packet(), *third = new_packet(), *got;

	rte_pktmbuf_chain(m, second);
	rte_pktmbuf_chain(m, third);
	got = pass(port, m);
	WANT(got != m && got->next == second && second->next == third && third->next == NULL);
	WANT(got->nb_segs == 3 && got->pkt_len == 300 && rte_mbuf_check(got, 1, NULL) == 0);
	rte_pktmbuf_free(got);
}

static void
external_freed(void *addr, void *arg)
{
	RTE_SET_USED(addr);
	RTE_SET_USED(arg);
}

/* What another one may use, or what lies elsewhere, stays as it is. */
static void
pass_left_alone(uint16_t port)
{
	static struct rte_mbuf_ext_shared_info info = { .free_cb = external_freed };
	static char buffer[4096];
	struct rte_mbuf *m = new_packet(), *clone = new_packet(), *got;

	rte_pktmbuf_attach(clone, m);
	got = pass(port, clone);
	WANT(got == clone);
	rte_pktmbuf_free(got);
	rte_mbuf_refcnt_update(m, 1);
	got = pass(port, m);
	WANT(got == m);
	rte_pktmbuf_free(got);
	rte_mbuf_ext_refcnt_set(&info, 1);
	rte_pktmbuf_attach_extbuf(m, buffer, 0, sizeof(buffer), &info);
	got = pass(port, m);
	WANT(got == m);
	rte_pktmbuf_free(got);
}

/* ---- ports that come and go ---- */

static void
wait_for_tick(void)
{
	rte_delay_us_sleep(400000);
}

static void
goes_and_comes(uint16_t port)
{
	unsigned int k;

	for (k = 0; k < 3; k++) {
		WANT(rte_eth_dev_stop(port) == 0);
		wait_for_tick();
		WANT(rte_eth_dev_start(port) == 0);
		/* (the callback was taken away, and isn't there yet again: rxq.clbk is public) */
		WANT(rte_eth_fp_ops[port].rxq.clbk[0] == NULL || k > 0);
		WANT(is_watched(port));
	}
	WANT(rte_eth_dev_stop(port) == 0 && rte_eth_dev_close(port) == 0);
	WANT(rte_eal_hotplug_add("vdev", "net_ring7", "") == 0);
	WANT(rte_eth_dev_get_port_by_name("net_ring7", &port) == 0);
	start(port);
	WANT(is_watched(port));
	pass_alone(port, 1);
	pass_chain(port);
	WANT(rte_eth_dev_stop(port) == 0 && rte_eth_dev_close(port) == 0);
}

int
main(int argc, char **argv)
{
	static const cookie_io_functions_t counting = { .write = count_lines };
	unsigned int k;
	FILE *log;

	if (rte_eal_init(argc, argv) < 0)
		return 2;
	log = fopencookie(NULL, "w", counting);
	setvbuf(log, NULL, _IOLBF, 4096);
	rte_openlog_stream(log);
	pool = rte_pktmbuf_pool_create_by_ops(
		"packets", MBUFS, 0, PRIVATE, ROOM, SOCKET_ID_ANY, MBUFPOOL_WATCH_OPS);
	if (pool == NULL || !rte_eth_dev_is_valid_port(0))
		rte_panic("no pool or no port: %s\n", rte_strerror(rte_errno));
	start(0);
	WANT(is_watched(0));
	for (k = 0; k < ROUNDS; k++) {
		pass_alone(0, k);
		pass_chain(0);
		pass_left_alone(0);
	}
	empty_stock();
	WANT(rte_mempool_avail_count(pool) == MBUFS);
	goes_and_comes(0);
	empty_stock();
	WANT(rte_mempool_avail_count(pool) == MBUFS);
	rte_mempool_free(pool);
	printf("watch_ports: %u faults, %u lines\n", wrong, nb_lines);
	fflush(stdout);
	_Exit(wrong != 0 || nb_lines != 0);
}
