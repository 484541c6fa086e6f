/* watch_uses.c - what right programs do with mbufs, on the handler "mbufpool_watch": clones, chains, external
 * buffers, frees of lists that nobody looks into, gets until nothing is left. Nothing of it may be told, no
 * mbuf may be lost, and the counts have to be right throughout.
 *
 *     make watch_uses
 *     MBUFPOOL_WATCH_EVERY=2 ./watch_uses [CACHE] --no-huge -m 64 --no-pci -l 0 \
 *             -d $PWD/librte_mempool_mbufpool_watch.so
 */
#define _GNU_SOURCE
#include <stdio.h>
#include <stdlib.h>
#include <string.h>

#include <rte_eal.h>
#include <rte_errno.h>
#include <rte_log.h>
#include <rte_mbuf.h>

#include "mempool_watch.h"

#define MBUFS 2047
#define ROOM 2176
#define PRIVATE 16
#define ROUNDS 300
#define BULK 32

static struct rte_mempool *pool;
static unsigned int wrong, nb_lines, nb_watched;

#define WANT(what)                                                                     \
	do {                                                                           \
		if (!(what)) {                                                         \
			printf("FAULT: line %d: not %s\n", __LINE__, #what);           \
			wrong++;                                                       \
		}                                                                      \
	} while (0)

static ssize_t
count_lines(void *cookie, const char *text, size_t n)
{
	RTE_SET_USED(cookie);
	if (memmem(text, n, "mbufpool", 8) != NULL && memmem(text, n, "are watched, and one in", 23) == NULL &&
		memmem(text, n, "nothing of it is watched", 24) == NULL) {
		nb_lines++;
		fwrite(text, 1, n, stdout);
	}
	return n;
}

/* ---- lists ---- */

static void
get_list(struct rte_mbuf **m, unsigned int n)
{
	unsigned int i;

	WANT(rte_pktmbuf_alloc_bulk(pool, m, n) == 0);
	for (i = 0; i < n; i++) {
		nb_watched += m[i]->pool != pool;
		WANT(m[i]->refcnt == 1 && m[i]->next == NULL && m[i]->nb_segs == 1);
		WANT(m[i]->buf_len == ROOM && m[i]->priv_size == PRIVATE && m[i]->data_len == 0);
	}
}

/* Gets each mbuf of the pool once, by lists of so many, and frees all. */
static void
whole(unsigned int at_once)
{
	static struct rte_mbuf *all[MBUFS + 512];
	static uint32_t mark;
	unsigned int n = 0, i, k;

	mark++;
	for (k = at_once; k > 0; k = n + k > MBUFS + 511 ? 0 : k)
		if (rte_pktmbuf_alloc_bulk(pool, &all[n], k) == 0)
			n += k;
		else
			k /= 2;
	WANT(n == MBUFS);
	WANT(rte_mempool_avail_count(pool) == 0 && rte_mempool_in_use_count(pool) == MBUFS);
	WANT(rte_pktmbuf_alloc(pool) == NULL);
	for (i = 0; i < n; i++) {
		WANT(all[i]->hash.usr != mark);
		all[i]->hash.usr = mark;
		memset(rte_pktmbuf_mtod(all[i], char *), mark, ROOM - RTE_PKTMBUF_HEADROOM);
		memset(rte_mbuf_to_priv(all[i]), mark, PRIVATE);
	}
	rte_pktmbuf_free_bulk(all, n);
	WANT(rte_mempool_avail_count(pool) == MBUFS);
}

/* ---- uses ---- */

static void
counts(void)
{
	struct rte_mbuf *m[MBUFS];
	unsigned int i;

	for (i = 0; i < MBUFS; i++) {
		get_list(&m[i], 1);
		WANT(rte_mempool_in_use_count(pool) == i + 1);
	}
	for (i = 0; i < MBUFS; i++) {
		rte_pktmbuf_free(m[i]);
		WANT(rte_mempool_avail_count(pool) == i + 1);
	}
}

static void
clones(void)
{
	struct rte_mbuf *m[BULK], *c[BULK];
	unsigned int i;

	get_list(m, BULK);
	for (i = 0; i < BULK; i++) {
		rte_pktmbuf_append(m[i], 100);
		c[i] = rte_pktmbuf_clone(m[i], i % 4 == 0 ? m[i]->pool : pool);
		WANT(c[i] != NULL && c[i]->buf_addr == m[i]->buf_addr);
	}
	for (i = 0; i < BULK; i++)
		rte_pktmbuf_free(i % 2 ? m[i] : c[i]);
	for (i = 0; i < BULK; i++)
		rte_pktmbuf_free(i % 2 ? c[i] : m[i]);
}

static void
chains(void)
{
	struct rte_mbuf *m[4 * BULK], *list[BULK];
	unsigned int i;

	get_list(m, 4 * BULK);
	for (i = 0; i < BULK; i++) {
		rte_pktmbuf_chain(m[4 * i], m[4 * i + 1]);
		rte_pktmbuf_chain(m[4 * i], m[4 * i + 2]);
		list[i] = m[4 * i];
		rte_pktmbuf_free(m[4 * i + 3]);
	}
	rte_pktmbuf_free_bulk(list, BULK);
}

static unsigned int nb_external;

static void
external_freed(void *addr, void *arg)
{
	RTE_SET_USED(addr);
	RTE_SET_USED(arg);
	nb_external++;
}

static void
external(void)
{
	static struct rte_mbuf_ext_shared_info info = { .free_cb = external_freed };
	static char buffer[4096];
	struct rte_mbuf *m[BULK];
	unsigned int i, before = nb_external;

	get_list(m, BULK);
	for (i = 0; i < BULK; i++) {
		rte_mbuf_ext_refcnt_set(&info, 1);
		rte_pktmbuf_attach_extbuf(m[i], buffer, 0, sizeof(buffer), &info);
		rte_pktmbuf_free(m[i]);
	}
	WANT(nb_external == before + BULK);
}

/* As drivers with RTE_ETH_TX_OFFLOAD_MBUF_FAST_FREE do: the pool of the first is that of all. */
static void
fast_frees(void)
{
	struct rte_mbuf *m[8 * BULK];

	get_list(m, 8 * BULK);
	rte_mempool_put_bulk(m[0]->pool, (void **)m, BULK);
	rte_mempool_put_bulk(pool, (void **)m + BULK, BULK);
	rte_mempool_generic_put(m[2 * BULK]->pool, (void **)m + 2 * BULK, 3 * BULK, NULL);
	rte_mempool_generic_put(pool, (void **)m + 5 * BULK, 3 * BULK, NULL);
}

static void
copies(void)
{
	struct rte_mbuf *m, *c;

	get_list(&m, 1);
	memset(rte_pktmbuf_append(m, 100), 7, 100);
	c = rte_pktmbuf_copy(m, m->pool, 0, UINT32_MAX);
	WANT(c != NULL && memcmp(rte_pktmbuf_mtod(m, char *), rte_pktmbuf_mtod(c, char *), 100) == 0);
	rte_pktmbuf_free(m);
	rte_pktmbuf_free(c);
}

static void
too_many(void)
{
	static struct rte_mbuf *m[8 * MBUFS];

	WANT(rte_pktmbuf_alloc_bulk(pool, m, MBUFS + 1) != 0);
	WANT(rte_pktmbuf_alloc_bulk(pool, m, 8 * MBUFS) != 0);
	WANT(rte_pktmbuf_alloc_bulk(pool, m, UINT32_MAX) != 0);
}

/* ---- pools of which nothing is watched ---- */

static void
objects(void)
{
	struct rte_mempool *mp = rte_mempool_create_empty("objects", 255, 136, 0, 16, SOCKET_ID_ANY, 0);
	uint32_t *private;
	void *list[255];

	WANT(mp != NULL && rte_mempool_set_ops_byname(mp, MBUFPOOL_WATCH_OPS, NULL) == 0);
	private = rte_mempool_get_priv(mp);
	private[0] = 1; /* (as a pool of crypto operations has it: a data room of 1, for mbufs) */
	WANT(rte_mempool_populate_default(mp) == 255);
	WANT(rte_mempool_get_bulk(mp, list, 255) == 0 && rte_mempool_avail_count(mp) == 0);
	memset(list[7], 0, 136);
	rte_mempool_put_bulk(mp, list, 255);
	WANT(rte_mempool_avail_count(mp) == 255);
	rte_mempool_free(mp);
}

/* (the flag is what counts) */
static void
pinned(void)
{
	struct rte_pktmbuf_pool_private own = { ROOM, 0, RTE_PKTMBUF_POOL_F_PINNED_EXT_BUF };
	struct rte_mempool *mp = rte_mempool_create_empty("pinned", 63, sizeof(struct rte_mbuf) + ROOM, 0,
		sizeof(own), SOCKET_ID_ANY, 0);
	struct rte_mbuf *m[63];
	unsigned int i;

	WANT(mp != NULL && rte_mempool_set_ops_byname(mp, MBUFPOOL_WATCH_OPS, NULL) == 0);
	rte_pktmbuf_pool_init(mp, &own);
	WANT(rte_mempool_populate_default(mp) == 63);
	rte_mempool_obj_iter(mp, rte_pktmbuf_init, NULL);
	WANT(rte_mempool_get_bulk(mp, (void **)m, 63) == 0);
	for (i = 0; i < 63; i++)
		WANT(m[i]->pool == mp);
	rte_mempool_put_bulk(mp, (void **)m, 63);
	WANT(rte_mempool_avail_count(mp) == 63);
	rte_mempool_free(mp);
}

static void
play(unsigned int cache)
{
	static void (*const uses[])(void) = { counts, clones, chains, external, fast_frees, copies, too_many };
	unsigned int i, k;

	pool = rte_pktmbuf_pool_create_by_ops("packets", MBUFS, cache, PRIVATE, ROOM, SOCKET_ID_ANY,
		MBUFPOOL_WATCH_OPS);
	if (pool == NULL)
		rte_panic("no pool: %s\n", rte_strerror(rte_errno));
	WANT(rte_mempool_avail_count(pool) == MBUFS);
	whole(1);
	for (i = 0; i < RTE_DIM(uses); i++) {
		for (k = 0; k < (uses[i] == counts ? 2 : ROUNDS); k++)
			uses[i]();
		whole(1 + 71 * i);
	}
	rte_mempool_free(pool);
}

int
main(int argc, char **argv)
{
	static const cookie_io_functions_t counting = { .write = count_lines };
	unsigned int cache = argc > 1 && argv[1][0] != '-' ? strtoul(argv[1], NULL, 10) : 0;
	int words = argc > 1 && argv[1][0] != '-' ? 1 : 0;
	FILE *log;

	argv[words] = argv[0];
	if (rte_eal_init(argc - words, argv + words) < 0)
		return 2;
	log = fopencookie(NULL, "w", counting);
	setvbuf(log, NULL, _IOLBF, 4096);
	rte_openlog_stream(log);
	play(cache);
	play(cache);
	objects();
	pinned();
	printf("watch_uses: %u faults, %u lines, watched mbufs were got %s\n", wrong, nb_lines,
		nb_watched > 1000 ? "often" : "seldom");
	fflush(stdout);
	_Exit(wrong != 0 || nb_lines != 0);
}
