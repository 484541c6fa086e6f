/* mbufpool_layout.c - prints where DPDK's structures have what mbufpool_core.py reads of them, as the
 * headers of the DPDK say that this is compiled with.
 *
 *     make mbufpool_layout.txt
 *
 * A line is `size STRUCTURE BYTES`, `field STRUCTURE.FIELD OFFSET BYTES`, `value NAME NUMBER` or
 * `version TEXT`. */
#ifndef ALLOW_EXPERIMENTAL_API
#define ALLOW_EXPERIMENTAL_API /* what rte_stack.h has in line calls one */
#endif
#include <inttypes.h>
#include <stddef.h>
#include <stdint.h>
#include <stdio.h>

#include <rte_lcore.h>
#include <rte_mbuf.h>
#include <rte_mempool.h>
#include <rte_ring.h>
#include <rte_stack.h>
#include <rte_tailq.h>

#include "guard_pool.h"
#include "pool_magazines.h"
#include "releases.h"

#define SIZE(type) printf("size " #type " %zu\n", sizeof(struct type))
#define FIELD(type, field)                                                                         \
	printf("field " #type "." #field " %zu %zu\n", offsetof(struct type, field),               \
	       sizeof(((struct type *)NULL)->field))
/* What has no bound in its type: one element of it. */
#define TABLE(type, field)                                                                         \
	printf("field " #type "." #field " %zu %zu\n", offsetof(struct type, field),               \
	       sizeof(((struct type *)NULL)->field[0]))
#define VALUE(name) print_value(#name, name)

static void
print_value(const char *name, uint64_t value)
{
	printf("value %s %" PRIu64 "\n", name, value);
}

/* The list of mempools: by a name that EAL looks for, to its head and the entries. */
static void
print_lists(void)
{
	FIELD(rte_tailq_elem, head);
	FIELD(rte_tailq_elem, next.tqe_prev);
	FIELD(rte_tailq_elem, name);
	FIELD(rte_tailq_head, tailq_head.tqh_first);
	SIZE(rte_tailq_entry);
	FIELD(rte_tailq_entry, next.tqe_next);
	FIELD(rte_tailq_entry, next.tqe_prev);
	FIELD(rte_tailq_entry, data);
}

static void
print_mempools(void)
{
	SIZE(rte_mempool);
	FIELD(rte_mempool, name);
	FIELD(rte_mempool, pool_data);
	FIELD(rte_mempool, size);
	FIELD(rte_mempool, cache_size);
	FIELD(rte_mempool, elt_size);
	FIELD(rte_mempool, header_size);
	FIELD(rte_mempool, trailer_size);
	FIELD(rte_mempool, private_data_size);
	FIELD(rte_mempool, ops_index);
	FIELD(rte_mempool, local_cache);
	FIELD(rte_mempool, populated_size);
	FIELD(rte_mempool, elt_list.stqh_first);
	FIELD(rte_mempool, nb_mem_chunks);
	FIELD(rte_mempool, mem_list.stqh_first);
	SIZE(rte_mempool_objhdr);
	FIELD(rte_mempool_objhdr, next.stqe_next);
	FIELD(rte_mempool_objhdr, mp);
	SIZE(rte_mempool_memhdr);
	FIELD(rte_mempool_memhdr, next.stqe_next);
	FIELD(rte_mempool_memhdr, mp);
	FIELD(rte_mempool_memhdr, addr);
	FIELD(rte_mempool_memhdr, len);
	SIZE(rte_mempool_cache);
	FIELD(rte_mempool_cache, len);
	FIELD(rte_mempool_cache, objs);
	SIZE(rte_mempool_ops);
	FIELD(rte_mempool_ops, name);
	FIELD(rte_mempool_ops, enqueue);
	FIELD(rte_mempool_ops_table, num_ops);
	FIELD(rte_mempool_ops_table, ops);
	VALUE(RTE_MEMPOOL_MAX_OPS_IDX);
	VALUE(RTE_MAX_LCORE);
}

static void
print_handlers(void)
{
	SIZE(rte_ring);
	FIELD(rte_ring, size);
	FIELD(rte_ring, mask);
	FIELD(rte_ring, capacity);
	FIELD(rte_ring, prod.sync_type);
	FIELD(rte_ring, prod.head);
	FIELD(rte_ring, prod.tail);
	FIELD(rte_ring, cons.sync_type);
	FIELD(rte_ring, cons.head);
	FIELD(rte_ring, cons.tail);
	FIELD(rte_ring, rts_prod.head.val.pos);
	FIELD(rte_ring, rts_cons.head.val.pos);
	VALUE(RTE_RING_SYNC_MT_RTS);
	FIELD(rte_stack, capacity);
	FIELD(rte_stack, stack_std.len);
	TABLE(rte_stack, stack_std.objs);
	FIELD(rte_stack, stack_lf.used.head.top);
	FIELD(rte_stack, stack_lf.used.len);
	TABLE(rte_stack, stack_lf.elems);
	SIZE(rte_stack_lf_elem);
	FIELD(rte_stack_lf_elem, data);
	FIELD(rte_stack_lf_elem, next);
}

/* The handlers of this project. */
static void
print_own_handlers(void)
{
	FIELD(guard_pool, size);
	FIELD(guard_pool, known);
	FIELD(guard_pool, places.next);
	FIELD(guard_pool, objects);
	FIELD(guard_pool, pasts);
	SIZE(past);
	FIELD(past, put);
	FIELD(pool_magazines, magic);
	FIELD(pool_magazines, address);
	FIELD(pool_magazines, count);
	FIELD(pool_magazines, bytes);
	FIELD(pool_magazines, kept);
	FIELD(pool_magazines, nb_kept);
	SIZE(magazine);
	FIELD(magazine, count);
	FIELD(magazine, objects);
	VALUE(MAGAZINES_MAGIC);
	VALUE(MOST_MAGAZINES);
	VALUE(MOST_ROUNDS);
}

static void
print_mbufs(void)
{
	SIZE(rte_mbuf);
	FIELD(rte_mbuf, buf_addr);
	FIELD(rte_mbuf, data_off);
	FIELD(rte_mbuf, refcnt);
	FIELD(rte_mbuf, nb_segs);
	FIELD(rte_mbuf, port);
	FIELD(rte_mbuf, ol_flags);
	FIELD(rte_mbuf, pkt_len);
	FIELD(rte_mbuf, data_len);
	FIELD(rte_mbuf, buf_len);
	FIELD(rte_mbuf, pool);
	FIELD(rte_mbuf, next);
	FIELD(rte_mbuf, priv_size);
	VALUE(RTE_MBUF_F_INDIRECT);
	VALUE(RTE_MBUF_F_EXTERNAL);
	SIZE(rte_pktmbuf_pool_private);
	FIELD(rte_pktmbuf_pool_private, mbuf_data_room_size);
	FIELD(rte_pktmbuf_pool_private, mbuf_priv_size);
}

int
main(void)
{
	printf("version %s\n", RTE_VER_PREFIX " " RTE_STR(RTE_VER_YEAR) "." RTE_STR(RTE_VER_MONTH));
	VALUE(PUT_RULE);
	print_lists();
	print_mempools();
	print_handlers();
	print_own_handlers();
	print_mbufs();
	return fflush(stdout) != 0;
}
