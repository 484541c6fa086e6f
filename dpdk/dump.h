/* dump.h - snapshots of DPDK's mempools of mbufs, for `mbufpool audit FILE`. */
#ifndef MBUFPOOL_DUMP_H
#define MBUFPOOL_DUMP_H

/**
 * @file
 * Where every mbuf of a mempool is
 *
 * A snapshot is JSON text. It says which elements are in the common part of a mempool, which in
 * the lcores' caches, what the packets of the application are made of, and the reference count of
 * each element. `mbufpool audit FILE` places each element once, or names the first fault.
 *
 * An element is an object of the pool. It is known by its number from 0, which is its index in
 * rte_mempool_obj_iter(). Worker 1 is the application, with its packets; each further worker is an
 * lcore whose cache isn't empty, see mbufpool_dump_workers(). The reference count of an external
 * buffer isn't looked at: to a snapshot, a segment with such a buffer is one with its own buffer.
 *
 * What is in DPDK's rings and stacks, and on mbufpool, is read where it lies: of a ring the slots from
 * the consumer's tail to the producer's, of `stack` its array, of `lf_stack` its list from the head, of
 * mbufpool each magazine, at the depot or an lcore's own. No object is got or put, no lock of the pool is taken, and nothing is written to it; EAL's lists of memzones and
 * mempools are looked at under EAL's locks. So a debugger may call these wherever the threads of a
 * program stand, unless one is just making or freeing a memzone or a mempool. Of mbufpool_guard what
 * isn't out is listed, by its own call.
 *
 * If no thread gets or puts objects of the pool meanwhile, or changes its packets, the snapshot says
 * where each mbuf is. If some do, it is made all the same: first all is copied, and what is then
 * written is of the copy, so that a change can neither lead astray nor keep from ending. Then an mbuf
 * that is just passing from one place to another may stand in both or in none, and a fault that the
 * audit names may be none: it is one if it stands in snapshots some moments apart. Whether a get or a
 * put was going on is a line of mbufpool_dump_workers(), but for mbufpool and mbufpool_guard.
 *
 * Handlers: ring_mp_mc, ring_sp_sc, ring_mp_sc, ring_sp_mc, ring_mt_rts, ring_mt_hts, stack, lf_stack;
 * and mbufpool, mbufpool_guard, whose own magazines and caches are in the common part. A ring or a stack
 * is known by the memzone that it is in, under whatever name its handler was registered. In a secondary
 * process a mempool on mbufpool is read out of the primary, which takes what a debugger needs: the same
 * user, or root.
 *
 * A snapshot is made in memory before its first byte is written. All calls that write return:
 *   - 0: Success.
 *   - -EINVAL: This isn't a pool of mbufs, or both pools of a pair are one.
 *   - -E2BIG: The pool has no objects, or more than 16,777,214; or more than 524,288 holds of them
 *     are for packets of other pools.
 *   - -ENOTSUP: What this handler's objects lie in isn't known.
 *   - -EPROTO: DPDK was built with other options when it made the pool than when this was built, by
 *     which the pool's caches lie elsewhere: another RTE_MAX_LCORE or RTE_MEMPOOL_CACHE_MAX_SIZE,
 *     or a mempool's checks or statistics.
 *   - -EFAULT: The list of the pool's objects leads out of its memory: what is in front of one of them
 *     was overwritten. Or mbufpool's magazines aren't where its pool says.
 *   - -EACCES: This is a secondary process, and the primary doesn't share the pool's memory.
 *   - -EPERM: This is a secondary process, and may not read the primary's own memory (mbufpool alone).
 *   - -ENOMEM: There is too little memory.
 *   - -EIO: The file couldn't be written. This is the only error after which some of it may be. */

#include <stdint.h>
#include <stdio.h>

#include <rte_mbuf.h>
#include <rte_mempool.h>

#ifdef __cplusplus
extern "C" {
#endif

#pragma GCC visibility push(default)

/** The number of what is no element of the pool. */
#define MBUFPOOL_NO_ELEM UINT32_MAX

/**
 * Write a snapshot of a pool in which each mbuf that isn't free is one of a packet.
 *
 * Nothing is asked of the application. A packet begins at each mbuf in use that no `next` of
 * another one names, and follows `next`. An mbuf that is in use only as the buffer of clones (its
 * reference count is the number of those in use) isn't a packet. So a leaked packet is a packet
 * like others here: the statement shows it, and mbufpool_dump_held() names it.
 *
 * @param out
 *   Where the snapshot is written.
 * @param mp
 *   The pool.
 * @return
 *   0 or a negative errno, see above.
 */
int mbufpool_dump(FILE *out, struct rte_mempool *mp);

/**
 * Write a snapshot of a pool with the packets that the application says it holds.
 *
 * What is neither free nor reached from these packets stands nowhere in the snapshot, and the
 * audit names it lost. A packet that is listed twice has two owners. The place of a packet in the
 * array is its slot in the statement.
 *
 * @param out
 *   Where the snapshot is written.
 * @param mp
 *   The pool.
 * @param held
 *   The first segments of these packets, or NULL for places without one. A packet may have
 *   segments of other pools, which are left out; if they are clones of mbufs of this one, these
 *   holds are guests of worker 1.
 * @param n
 *   How many.
 * @return
 *   0 or a negative errno, see above.
 */
int mbufpool_dump_held(FILE *out, struct rte_mempool *mp, struct rte_mbuf *const *held,
		       unsigned int n);

/**
 * Write a snapshot of each of two pools, of which the one has clones of the other's mbufs.
 *
 * As mbufpool_dump(), over both. In the snapshot of a pool whose buffers the clones of the other
 * use, these holds are guests of worker 1. In the snapshot of the clones' pool the bases are
 * foreign, with their numbers in the other pool; if it has clones of its own mbufs as well, the
 * foreign ones are left out. A packet's slot is the same in both snapshots.
 *
 * @param out_first
 *   Where the snapshot of the first pool is written.
 * @param out_second
 *   Where that of the second is written, once that of the first was.
 * @param first
 *   The one pool.
 * @param second
 *   The other one.
 * @return
 *   0 or a negative errno, see above.
 */
int mbufpool_dump_pair(FILE *out_first, FILE *out_second, struct rte_mempool *first,
		       struct rte_mempool *second);

/**
 * Write a snapshot of each of two pools, as mbufpool_dump_pair(), with the packets that the
 * application says it holds, as mbufpool_dump_held().
 *
 * @param out_first
 *   Where the snapshot of the first pool is written.
 * @param out_second
 *   Where that of the second is written, once that of the first was.
 * @param first
 *   The one pool.
 * @param second
 *   The other one.
 * @param held
 *   The first segments of the packets, of either pool, or NULL for places without one.
 * @param n
 *   How many.
 * @return
 *   0 or a negative errno, see above.
 */
int mbufpool_dump_pair_held(FILE *out_first, FILE *out_second, struct rte_mempool *first,
			    struct rte_mempool *second, struct rte_mbuf *const *held,
			    unsigned int n);

/**
 * Write for people which worker of a snapshot is what: a line for each, as
 * `worker 2: lcore 0, cache of 37`. Where more than 63 lcores have something in their caches,
 * worker 64 has those of the 63rd and of all that follow it.
 *
 * If a get or a put of a ring or a stack is going on, or was when its thread was stopped, a last line
 * says so: `common: a get of 32 and a put of 0 were going on`, of a ring's objects between head and
 * tail; `common: a get or a put was going on` where the lock of `stack` is held; `common: its list has
 * 32 objects, and its length is 64`, or `common: its list changed while it was read`, of `lf_stack`.
 *
 * @param out
 *   Where the lines are written.
 * @param mp
 *   The pool.
 */
void mbufpool_dump_workers(FILE *out, struct rte_mempool *mp);

/**
 * The mbuf that has this number, for a debugger, or rte_pktmbuf_dump().
 *
 * @param mp
 *   The pool.
 * @param elem
 *   The number of an element.
 * @return
 *   The mbuf, or NULL if the pool has no such element.
 */
struct rte_mbuf *mbufpool_mbuf_of(struct rte_mempool *mp, uint32_t elem);

/**
 * The number of an mbuf.
 *
 * @param mp
 *   The pool.
 * @param m
 *   The mbuf, of which nothing is read.
 * @return
 *   The number of the element, or MBUFPOOL_NO_ELEM if it is no object of the pool.
 */
uint32_t mbufpool_elem_of(struct rte_mempool *mp, const struct rte_mbuf *m);

#pragma GCC visibility pop

#ifdef __cplusplus
}
#endif

#endif
