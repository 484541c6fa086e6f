/* faults.c - a pool of mbufs as it should be, and with the faults of leaks, of double frees and of
 * counts, each dumped as a snapshot for `mbufpool audit FILE`.
 *
 *     make faults
 *     ./faults PLAY OPS FILE --no-huge -m 64 --no-pci -l 0-3
 *
 * Plays: healthy, busy, pair, double-free, free-under-clone, count-lowered, lost-chain, leaks,
 * overwritten. OPS is a mempool handler. The snapshot with what the application says it holds goes to FILE, and that without to
 * FILE.all; those of a pair, without, to FILE and FILE.second.
 *
 * On DPDK's own handlers the memory of the mempools can't be written while they are dumped, and is
 * compared with what it was. */
#include <errno.h>
#include <signal.h>
#include <stdio.h>
#include <stdlib.h>
#include <string.h>
#include <sys/mman.h>
#include <unistd.h>

#include <rte_eal.h>
#include <rte_errno.h>
#include <rte_launch.h>
#include <rte_lcore.h>
#include <rte_mbuf.h>
#include <rte_memory.h>
#include <rte_ring.h>

#include "dump.h"

#define MANY 4095
#define FEW 31
#define LEAKED 143 /* mbufs */
#define ROUNDS 50000
#define DUMPS 20 /* while lcores work */
#define TABLE 128 /* packets that an lcore has at most */
#define RING 64
#define MAX_SEGS 32

/* What an lcore has: packets, and a ring over which the lcore before it passes packets to it. */
struct lcore {
	struct rte_mbuf *packets[TABLE];
	struct rte_ring *in, *out;
	struct rte_mempool *clones;
	uint64_t random;
} __rte_cache_aligned;

static struct rte_mempool *pool, *clone_pool;
static struct lcore lcores[RTE_MAX_LCORE];
static struct rte_mbuf *held[RTE_MAX_LCORE * (TABLE + RING)];
static unsigned int nb_held;
static int is_work_long; /* lcores work until it isn't */

static uint64_t
next_random(struct lcore *own)
{
	own->random ^= own->random << 13;
	own->random ^= own->random >> 7;
	own->random ^= own->random << 17;
	return own->random >> 16;
}

/* What one packet in a table, a place beside it, and the rings can be used for. */
static void
step(struct lcore *own)
{
	struct rte_mbuf **a = &own->packets[next_random(own) % TABLE];
	struct rte_mbuf **b = &own->packets[next_random(own) % TABLE];
	void *packet;

	switch (next_random(own) % 6) {
	case 0:
		if (*a == NULL && (*a = rte_pktmbuf_alloc(pool)) != NULL)
			rte_pktmbuf_append(*a, next_random(own) % 1500);
		break;
	case 1:
		if (*a != NULL && *b == NULL)
			*b = rte_pktmbuf_clone(*a, own->clones);
		break;
	case 2:
		if (a != b && *a != NULL && *b != NULL &&
		    (*a)->nb_segs + (*b)->nb_segs <= MAX_SEGS && rte_pktmbuf_chain(*a, *b) == 0)
			*b = NULL;
		break;
	case 3:
		if (*a != NULL && rte_ring_enqueue(own->out, *a) == 0)
			*a = NULL;
		break;
	case 4:
		if (*a == NULL && rte_ring_dequeue(own->in, &packet) == 0)
			*a = packet;
		break;
	default:
		rte_pktmbuf_free(*a);
		*a = NULL;
	}
}

static int
work(void *arg)
{
	unsigned int i;

	RTE_SET_USED(arg);
	for (i = 0; i < ROUNDS || __atomic_load_n(&is_work_long, __ATOMIC_RELAXED); i++)
		step(&lcores[rte_lcore_id()]);
	return 0;
}

/* Lets lcores work. */
static int
begin_lcores(struct rte_mempool *clones, enum rte_rmt_call_main_t is_main_one)
{
	struct lcore *last = NULL, *first = NULL, *own;
	char name[RTE_RING_NAMESIZE];
	unsigned int i;

	RTE_LCORE_FOREACH (i) {
		own = &lcores[i];
		own->random = 0x9e3779b97f4a7c15 * (i + 1);
		own->clones = clones;
		snprintf(name, sizeof(name), "to_%u", i);
		own->in = rte_ring_create(name, RING, SOCKET_ID_ANY, RING_F_SP_ENQ | RING_F_SC_DEQ);
		if (own->in == NULL)
			return -ENOMEM;
		if (last == NULL)
			first = own;
		else
			last->out = own->in;
		last = own;
	}
	last->out = first->in;
	return rte_eal_mp_remote_launch(work, NULL, is_main_one);
}

/* Waits for them, and lists what they and the rings have in the end. */
static void
end_lcores(void)
{
	unsigned int i, k;
	void *packet;

	rte_eal_mp_wait_lcore();
	RTE_LCORE_FOREACH (i) {
		for (k = 0; k < TABLE; k++)
			held[nb_held++] = lcores[i].packets[k];
		while (lcores[i].in != NULL && rte_ring_dequeue(lcores[i].in, &packet) == 0)
			held[nb_held++] = packet;
	}
}

/* ---- what a dump leaves as it was: all memory that DPDK has ---- */

struct region {
	void *at, *before;
	size_t bytes;
};

static struct region regions[64];
static unsigned int nb_regions;

static int
keep_region(const struct rte_memseg_list *list, const struct rte_memseg *seg, size_t bytes,
	    void *arg)
{
	struct region *r = &regions[nb_regions];

	RTE_SET_USED(list);
	RTE_SET_USED(arg);
	if (nb_regions == RTE_DIM(regions) || (r->before = malloc(bytes)) == NULL)
		return -1;
	r->at = seg->addr;
	r->bytes = bytes;
	memcpy(r->before, r->at, bytes);
	nb_regions++;
	return mprotect(r->at, bytes, PROT_READ);
}

static void
tell_written(int signal)
{
	static const char text[] = "the dump writes to the pool\n";

	RTE_SET_USED(signal);
	_exit(write(STDERR_FILENO, text, sizeof(text) - 1) < 0 ? 2 : 1);
}

/* Keeps what is in the memory that mempools are in, and lets nobody write there. */
static int
begin_still(void)
{
	signal(SIGSEGV, tell_written);
	return rte_memseg_contig_walk(keep_region, NULL) != 0 || nb_regions == 0 ? -ENOMEM : 0;
}

/* Whether all is as it was. */
static int
end_still(void)
{
	unsigned int i;
	int ret = 0;

	for (i = 0; i < nb_regions; i++) {
		if (mprotect(regions[i].at, regions[i].bytes, PROT_READ | PROT_WRITE) != 0 ||
		    memcmp(regions[i].at, regions[i].before, regions[i].bytes) != 0)
			ret = -EFAULT;
		free(regions[i].before);
	}
	nb_regions = 0;
	signal(SIGSEGV, SIG_DFL);
	return ret;
}

/* Handlers whose common part is read where it lies. The guard lists its own by calls. */
static int
is_read_in_place(void)
{
	return strcmp(rte_mempool_get_ops(pool->ops_index)->name, "mbufpool_guard") != 0;
}

/* ---- the plays ---- */

static int
dump_both(FILE *out, FILE *out_all)
{
	unsigned int available = rte_mempool_avail_count(pool);
	int ret = is_read_in_place() ? begin_still() : 0;

	if (ret == 0)
		ret = mbufpool_dump_held(out, pool, held, nb_held);
	if (ret == 0)
		ret = mbufpool_dump(out_all, pool);
	if (ret == 0 && is_read_in_place())
		ret = end_still();
	return ret == 0 && rte_mempool_avail_count(pool) != available ? -EFAULT : ret;
}

/* The other lcores work while the pool is dumped: it has to end, each time. */
static int
busy(FILE *out, FILE *out_all)
{
	FILE *to = fopen("/dev/null", "w");
	unsigned int i;
	int ret = to == NULL ? -errno : 0;

	is_work_long = 1;
	if (ret == 0)
		ret = begin_lcores(pool, SKIP_MAIN);
	for (i = 0; ret == 0 && i < DUMPS; i++)
		ret = mbufpool_dump(to, pool);
	__atomic_store_n(&is_work_long, 0, __ATOMIC_RELAXED);
	end_lcores();
	if (to != NULL)
		fclose(to);
	return ret != 0 ? ret : dump_both(out, out_all);
}

/* Several lcores get, clone, chain, free and pass on; where they stop each mbuf has its place. */
static int
healthy(FILE *out, FILE *out_all)
{
	int ret = begin_lcores(pool, CALL_MAIN);

	end_lcores();
	return ret != 0 ? ret : dump_both(out, out_all);
}

/* The same with clones of a second pool. */
static int
pair(FILE *out, FILE *out_second)
{
	int ret = begin_lcores(clone_pool, CALL_MAIN);

	end_lcores();
	if (ret == 0 && is_read_in_place())
		ret = begin_still();
	if (ret == 0)
		ret = mbufpool_dump_pair(out, out_second, pool, clone_pool);
	return ret == 0 && is_read_in_place() ? end_still() : ret;
}

static struct rte_mbuf *
get_packet(uint16_t length)
{
	struct rte_mbuf *m = rte_pktmbuf_alloc(pool);

	if (m != NULL)
		rte_pktmbuf_append(m, length);
	return m;
}

/* Two packets that the application has besides, so that a fault stands among what is right. */
static void
hold_two(void)
{
	held[nb_held++] = get_packet(60);
	held[nb_held++] = get_packet(1514);
}

/* Dumps, and tells at which mbuf a fault is to be found. */
static int
dump_fault(FILE *out, FILE *out_all, const struct rte_mbuf *m)
{
	printf("element %u\n", mbufpool_elem_of(pool, m));
	return dump_both(out, out_all);
}

/* An mbuf is freed twice, and got twice: two packets own it. */
static int
double_free(FILE *out, FILE *out_all)
{
	struct rte_mbuf *m = get_packet(60);

	rte_pktmbuf_free(m);
	rte_pktmbuf_free(m);
	held[nb_held++] = get_packet(60);
	held[nb_held++] = get_packet(98);
	return dump_fault(out, out_all, m);
}

/* An mbuf is freed once more than it is held, so that it goes back though a clone reads it. */
static int
free_under_clone(FILE *out, FILE *out_all)
{
	struct rte_mbuf *m = get_packet(60);

	held[nb_held++] = rte_pktmbuf_clone(m, pool);
	rte_pktmbuf_free(m);
	rte_pktmbuf_free(m);
	return dump_fault(out, out_all, m);
}

/* The count of an mbuf with a clone is set by hand: the first of the two to be freed gives it
 * back. */
static int
count_lowered(FILE *out, FILE *out_all)
{
	struct rte_mbuf *m = get_packet(60);

	held[nb_held++] = m;
	held[nb_held++] = rte_pktmbuf_clone(m, pool);
	rte_mbuf_refcnt_set(m, 1);
	return dump_fault(out, out_all, m);
}

/* A chain whose head is overwritten: nobody has its tail. */
static int
lost_chain(FILE *out, FILE *out_all)
{
	struct rte_mbuf *m = get_packet(2000), *tail = get_packet(500);

	rte_pktmbuf_chain(m, tail);
	m->next = NULL;
	held[nb_held++] = m;
	return dump_fault(out, out_all, tail);
}

/* Tells each mbuf of a packet that nobody has, and answers how many they are. */
static unsigned int
leak(struct rte_mbuf *m)
{
	unsigned int n;

	for (n = 0; m != NULL; m = m->next) {
		printf("element %u\n", mbufpool_elem_of(pool, m));
		n++;
		if (RTE_MBUF_CLONED(m)) {
			printf("element %u\n", mbufpool_elem_of(pool, rte_mbuf_from_indirect(m)));
			n++;
		}
	}
	return n;
}

/* Packets of one mbuf, of two, and clones whose originals were freed: nobody has them. */
static int
leaks(FILE *out, FILE *out_all)
{
	unsigned int n = 0, k;
	struct rte_mbuf *m, *other;

	for (k = 0; n < LEAKED; k++) {
		m = get_packet(60);
		other = k % 3 == 0 ? m : k % 3 == 1 ? get_packet(98) : rte_pktmbuf_clone(m, pool);
		if (m == NULL || other == NULL)
			return -ENOMEM;
		if (k % 3 == 1)
			rte_pktmbuf_chain(m, other);
		if (k % 3 == 2)
			rte_pktmbuf_free(m);
		n += leak(k % 3 == 2 ? other : m);
	}
	return dump_both(out, out_all);
}

/* An mbuf's `next` is overwritten, and so is what DPDK has in front of another one: neither is
 * followed. */
static int
overwritten(FILE *out, FILE *out_all)
{
	struct rte_mbuf *m = get_packet(60), *other = get_packet(60);
	struct rte_mempool_objhdr *hdr = rte_mempool_get_header(m), before = *hdr;
	int ret;

	held[nb_held++] = m;
	held[nb_held++] = other;
	memset(hdr, 0x41, sizeof(*hdr));
	ret = mbufpool_dump(out, pool);
	*hdr = before;
	if (ret != -EFAULT)
		return -EIO;
	m->next = (struct rte_mbuf *)0x4141414141414140;
	return dump_fault(out, out_all, m);
}

static const struct {
	const char *name;
	int (*play)(FILE *out, FILE *out_second);
	unsigned int population;
} plays[] = {
	{"healthy", healthy, MANY},
	{"busy", busy, MANY},
	{"pair", pair, MANY},
	{"double-free", double_free, FEW},
	{"free-under-clone", free_under_clone, FEW},
	{"count-lowered", count_lowered, FEW},
	{"lost-chain", lost_chain, FEW},
	{"leaks", leaks, MANY},
	{"overwritten", overwritten, FEW},
};

static struct rte_mempool *
open_pool(const char *name, const char *ops, unsigned int size)
{
	return rte_pktmbuf_pool_create_by_ops(name, size, size / 8, 0, RTE_MBUF_DEFAULT_BUF_SIZE,
					      SOCKET_ID_ANY, ops);
}

int
main(int argc, char **argv)
{
	char second[4096];
	FILE *out, *out_second;
	unsigned int k = 0;
	int ret;

	while (argc >= 4 && k < RTE_DIM(plays) && strcmp(plays[k].name, argv[1]) != 0)
		k++;
	if (argc < 4 || k == RTE_DIM(plays)) {
		fprintf(stderr, "usage: faults PLAY OPS FILE [EAL options]\n");
		return 2;
	}
	snprintf(second, sizeof(second), "%s%s", argv[3],
		 plays[k].play == pair ? ".second" : ".all");
	out = fopen(argv[3], "w");
	out_second = fopen(second, "w");
	if (out == NULL || out_second == NULL) {
		fprintf(stderr, "%s can't be written\n", argv[3]);
		return 2;
	}
	argv[3] = argv[0];
	if (rte_eal_init(argc - 3, argv + 3) < 0)
		return 2;
	pool = open_pool("pool", argv[2], plays[k].population);
	clone_pool = open_pool("clones", argv[2], plays[k].population);
	if (pool == NULL || clone_pool == NULL) {
		fprintf(stderr, "%s: no pool: %s\n", argv[2], rte_strerror(rte_errno));
		return 2;
	}
	hold_two();
	ret = plays[k].play(out, out_second);
	if (ret != 0) {
		fprintf(stderr, "%s on %s: %s\n", argv[1], argv[2], strerror(-ret));
		return 1;
	}
	printf("available %u\n", rte_mempool_avail_count(pool));
	mbufpool_dump_workers(stdout, pool);
	return fclose(out) != 0 || fclose(out_second) != 0;
}
