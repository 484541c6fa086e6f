/* watch_ports.c - one packet in N that a port receives goes over into a watched mbuf: so also what an lcore
 * gets from its own cache, and frees into it, is watched.
 *
 * A callback stands behind the receiving of each queue of a port that has started. It copies the first segment
 * of the packet, whose turn it is, with its header and the program's area, and hands that on; the rest of the
 * packet is chained to it. The mbuf that was received is freed. Left alone is what another one may use too, or
 * what doesn't lie in its own buffer. */
#include <pthread.h>
#include <string.h>

#include <rte_errno.h>
#include <rte_ethdev.h>
#include <rte_malloc.h>

#include "mempool_watch.h"
#include "watch.h"

/* The turns of each queue, which one lcore at a time receives from. They stay when a port goes, and of a port
 * with its number the turns go on. */
static struct turn turns[RTE_MAX_ETHPORTS][RTE_MAX_QUEUES_PER_PORT];
static uint64_t every, seed; /* those of the first mempool that is watched; 0: none is yet */

/* The callbacks that stand now, of a port that had started when it was looked at, and those that were taken
 * away last: an lcore may still be in one. And how many queues of a port ever had turns. (under the lock) */
static pthread_mutex_t lock = PTHREAD_MUTEX_INITIALIZER;
static const struct rte_eth_rxtx_callback *added[RTE_MAX_ETHPORTS][RTE_MAX_QUEUES_PER_PORT],
	*taken[RTE_MAX_ETHPORTS][RTE_MAX_QUEUES_PER_PORT];
static uint16_t nb_added[RTE_MAX_ETHPORTS], nb_turns[RTE_MAX_ETHPORTS];

/* ---- packets ---- */

/* The watch of a packet's mempool, or NULL. */
static struct watch *
watch_of(const struct rte_mbuf *m)
{
	const struct rte_mempool *mp = m->pool;
	struct watch *s;

	if (strcmp(rte_mempool_get_ops(mp->ops_index)->name, MBUFPOOL_WATCH_OPS) != 0)
		return NULL;
	s = mp->pool_data;
	return s != NULL && s->mp == mp && s->wishes.rx && is_watching(s) ? s : NULL;
}

/* Whether nobody else can have this segment, and its data lies in its own buffer. */
static int
is_own(const struct watch *s, const struct rte_mbuf *m)
{
	return RTE_MBUF_DIRECT(m) && rte_mbuf_refcnt_read(m) == 1 &&
	       m->buf_addr == (const char *)m + s->kept_bytes &&
	       (uint32_t)m->data_off + m->data_len <= s->room;
}

/* Copies a segment, from the beginning of its buffer to the end of its data. The mbuf keeps its own buffer and
 * pool; and takes over what is chained behind. */
static void
copy_segment(const struct watch *s, struct rte_mbuf *to, struct rte_mbuf *from)
{
	struct rte_mempool *pool = to->pool;
	void *buf_addr = to->buf_addr;
	rte_iova_t iova = rte_mbuf_iova_get(to);

	memcpy(to, from, s->kept_bytes);
	to->pool = pool;
	to->buf_addr = buf_addr;
	rte_mbuf_iova_set(to, iova);
	memcpy(buf_addr, from->buf_addr, (size_t)from->data_off + from->data_len);
	from->next = NULL;
	from->nb_segs = 1;
}

static __rte_noinline void
take_over(struct rte_mbuf **at, uint16_t port, const void *from, const uintptr_t *slot)
{
	struct rte_mbuf *m = *at, *w;
	struct watch *s = watch_of(m);
	struct past get = { .how_got = FROM_A_PORT, .port = port };
	struct turn *counts;

	if (s == NULL)
		return;
	counts = own_turn(s->ports);
	if (!is_own(s, m)) {
		turn_add(&counts->left_alone, 1);
		return;
	}
	if (watch_waiting(s) != 0)
		get.got = caller_of(rte_lcore_id(), call_place(from, s->wishes.calls, slot));
	if (!watch_get(s, &w, &get)) {
		turn_add(&counts->dry, 1);
		return;
	}
	copy_segment(s, w, m);
	turn_add(&counts->given, 1);
	*at = w;
	rte_pktmbuf_free_seg(m);
}

/* It is the turn of some of these packets, which are counted from 1. */
static __rte_noinline uint16_t
take_turns(uint16_t port, struct turn *t, struct rte_mbuf **packets, uint16_t n, const void *from)
{
	const uintptr_t *slot = slot_of(from, RETURN_SLOT());
	int64_t until;

	for (until = turn_until(t); until <= n; until += turn_draw(t, every))
		take_over(&packets[until - 1], port, from, slot);
	turn_set_until(t, until - n);
	return n;
}

/* (most often it counts, and no more) */
static uint16_t
received(uint16_t port, uint16_t queue, struct rte_mbuf **packets, uint16_t n, uint16_t most, void *arg)
{
	struct turn *t = arg;
	int64_t until = turn_until(t);

	RTE_SET_USED(queue);
	RTE_SET_USED(most);
	if (unlikely(until <= n))
		return take_turns(port, t, packets, n, __builtin_return_address(0));
	turn_set_until(t, until - n);
	return n;
}

uint64_t
watch_seen_of_ports(void)
{
	uint64_t seen = 0;
	uint16_t port, q;

	pthread_mutex_lock(&lock);
	for (port = 0; port < RTE_MAX_ETHPORTS; port++)
		for (q = 0; q < nb_turns[port]; q++)
			seen += turn_load(&turns[port][q].drawn) - turn_until(&turns[port][q]);
	pthread_mutex_unlock(&lock);
	return seen;
}

/* ---- ports that start and stop ---- */

/* Until a port starts, and again when it has stopped, its packets come from a function of EAL's that is the
 * same for all such ports, also of numbers that no port has. */
static int
has_started(uint16_t port)
{
	static eth_rx_burst_t of_none;
	uint16_t other;

	for (other = 0; of_none == NULL && other < RTE_MAX_ETHPORTS; other++)
		if (!rte_eth_dev_is_valid_port(other))
			of_none = rte_eth_fp_ops[other].rx_pkt_burst;
	return of_none != NULL && rte_eth_dev_is_valid_port(port) &&
	       __atomic_load_n(&rte_eth_fp_ops[port].rx_pkt_burst, __ATOMIC_RELAXED) != of_none;
}

/* (a callback that was taken away is freed when the next one is: no lcore is in it any more) */
static void
take_away(uint16_t port)
{
	uint16_t q;

	for (q = 0; q < nb_added[port]; q++) {
		if (added[port][q] == NULL ||
			rte_eth_remove_rx_callback(port, q, added[port][q]) != 0)
			continue;
		rte_free((void *)(uintptr_t)taken[port][q]);
		taken[port][q] = added[port][q];
		added[port][q] = NULL;
	}
	nb_added[port] = 0;
}

/* Begins the turns of a port's queues that never had any: those of each differ from all others'. */
static void
begin_turns(uint16_t port)
{
	uint16_t q;

	for (q = nb_turns[port]; q < nb_added[port]; q++) {
		struct turn *t = &turns[port][q];

		turn_begin(t, seed, RTE_MAX_LCORE + 1 + port * RTE_MAX_QUEUES_PER_PORT + q);
		turn_set_until(t, turn_draw(t, every));
	}
	nb_turns[port] = RTE_MAX(nb_turns[port], nb_added[port]);
}

static void
add(uint16_t port)
{
	struct rte_eth_dev_info info;
	uint16_t q;

	if (rte_eth_dev_info_get(port, &info) != 0)
		return;
	nb_added[port] = RTE_MIN(info.nb_rx_queues, RTE_DIM(added[port]));
	begin_turns(port);
	for (q = 0; q < nb_added[port]; q++) {
		added[port][q] = rte_eth_add_rx_callback(port, q, received, &turns[port][q]);
		if (added[port][q] == NULL)
			watch_log_ports(rte_strerror(rte_errno));
	}
}

/* A port goes: with its callbacks, before its number is another's. */
static int
leaves(uint16_t port, enum rte_eth_event_type event, void *arg, void *ret)
{
	RTE_SET_USED(event);
	RTE_SET_USED(arg);
	RTE_SET_USED(ret);
	pthread_mutex_lock(&lock);
	take_away(port);
	pthread_mutex_unlock(&lock);
	return 0;
}

void
watch_look_at_ports(const struct watch_wishes *wishes)
{
	uint16_t port;

	pthread_mutex_lock(&lock);
	if (every == 0) {
		every = wishes->every;
		seed = wishes->seed;
		rte_eth_dev_callback_register(RTE_ETH_ALL, RTE_ETH_EVENT_DESTROY, leaves, NULL);
	}
	for (port = 0; port < RTE_MAX_ETHPORTS; port++) {
		int started = has_started(port);

		if (started && nb_added[port] == 0)
			add(port);
		else if (!started && nb_added[port] != 0)
			take_away(port);
	}
	pthread_mutex_unlock(&lock);
}

void
watch_leave_ports(void)
{
	uint16_t port;

	pthread_mutex_lock(&lock);
	for (port = 0; port < RTE_MAX_ETHPORTS; port++)
		if (nb_added[port] != 0)
			take_away(port);
	pthread_mutex_unlock(&lock);
}
