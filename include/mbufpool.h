/* mbufpool.h - the packet-buffer pool as a C library (libmbufpool).
 *
 * Three faces, each behind handles that the caller keeps:
 *
 *   struct mbufpool_pool     values of 64 bits, the addresses of objects, say: a worker has two
 *                            magazines of them, and exchanges one at the pool's depot, without a
 *                            lock, where both are empty or full
 *   struct mbufpool_guard    elements, 0 to population - 1, at such a depot, each with a word that says
 *                            by which worker it is out: what isn't out is refused, whoever puts it
 *   struct mbufpool_worker   packets, on a stack of elements that up to 64 threads use at once without
 *                            a lock: a worker has a cache and a table of 256 packets, with lengths,
 *                            chains, reference counts and clones; a packet passes to another worker
 *                            over a desk, or over any queue as a parcel; a pool of packets that is
 *                            closed leaves a statement (struct mbufpool_statement)
 *
 * What a call answers:
 *
 *   Every call answers 0, or the number of a refusal (enum mbufpool_refusal), which mbufpool_strerror
 *   says in words. Calls of another type answer a count, as their comments say, and the calls that end
 *   a handle nothing. A list of refusals has them in the order in which they are looked for: of two
 *   causes the first is answered. After a refusal nothing has changed, and what the call would have
 *   written to is as it was, but for what its comment says.
 *
 *   A handle with zeros is safe in every call, which answers MBUFPOOL_STRANGER, or a count of 0. In the
 *   lists below MBUFPOOL_STRANGER without a word means that. What stands before it in a list comes
 *   before it, too; and where a comment says so, a get or a put of no elements by such a handle is
 *   answered 0.
 *
 *   NULL for a handle is answered as a handle with zeros is, and a call that ends a handle does nothing
 *   then. Where it is the handle that the call would give something, it is refused by MBUFPOOL_STRANGER
 *   before all else. The test for it is in line, in a
 *   macro of the call's name: a call by the function's address, or written as
 *   (mbufpool_worker_free)(worker, slot), goes without.
 *
 *   Memory is taken, and MBUFPOOL_NO_MEMORY answered, by the calls that open, split or close a pool
 *   alone; the two that write a statement take some for a while, and answer 0 where there is none. A
 *   pool's memory is freed with its last worker, or when it is closed.
 *
 * What the caller owes, and nothing checks:
 *
 *   handles    A handle begins as zeros (MBUFPOOL_NONE), and is then changed by the calls below
 *              alone. It is not copied: two structs with one pointer are two owners of one
 *              worker.
 *              One thread at a time uses it; it passes to another thread by a lock, a thread's
 *              start or join, or a sequentially consistent atomic. It is NULL only where that is
 *              answered, as is said above.
 *   closing    One thread at a time closes a pool: no two calls of mbufpool_worker_close that run
 *              at once are given workers of one pool.
 *   memory     `out` has room for n of its kind and `list` has n numbers; where n is 0 nothing is
 *              read or written there. What the pointers of one call lead to doesn't overlap (two
 *              handles are two structs), and is the call's alone while it runs.
 *   values     (pools of values alone) Each value that is put was got from this pool, by whichever
 *              worker, and not put since, or never put; a list has none of them twice; and each is below
 *              UINT64_MAX. It doesn't matter whether the worker that got it is ended by now. A value
 *              passes from thread to thread as a handle does, or by any exchange of theirs that orders
 *              memory. Else one value may be given to two callers.
 *   parcels    (pools of packets alone) A parcel is received once, by a worker of the pool that sent it,
 *              with the bytes that the send wrote. These may be copied elsewhere: then the copy is
 *              received, and not the original too. A parcel passes from thread to thread as a handle
 *              does, or by any exchange of theirs that orders memory, as an rte_ring does. Else one
 *              element may be in two packets.
 *   process    malloc, realloc and free are of one allocator and give blocks aligned as C asks; no
 *              call is made from a signal handler, or in a forked child of a process with threads.
 *
 * Whatever numbers a caller passes to a worker's calls (slots that are free, freed packets, desks
 * that there are not, lengths too great), they are refused by name, but for what is written in a parcel.
 */
#ifndef MBUFPOOL_H
#define MBUFPOOL_H
#include <stddef.h>
#include <stdint.h>

#ifdef __cplusplus
extern "C" {
#endif

/** The version of this header. */
#define MBUFPOOL_VERSION_MAJOR 0
#define MBUFPOOL_VERSION_MINOR 1
#define MBUFPOOL_VERSION "0.1"

/** A version as one number, which compares as versions do. */
#define MBUFPOOL_VERSION_NUMBER(major, minor) (65536u * (major) + (minor))

/**
 * Says of which version the library is that runs: as a shared object it may be another than that of
 * the header.
 *
 * @return
 *   MBUFPOOL_VERSION_NUMBER(major, minor) of the library.
 */
uint32_t mbufpool_version(void);

/** Why a call was refused. The numbers that aren't here are of the program alone. */
enum mbufpool_refusal {
	MBUFPOOL_BAD_POOL = 1,		/**< limits out of range */
	MBUFPOOL_NO_MEMORY = 2,
	MBUFPOOL_NO_ENTRIES = 3,	/**< fewer elements than were asked for were counted, or fewer were with
					 * the worker and none at the depot; or nothing is left to tell */
	MBUFPOOL_CONTENDED = 4,		/**< as many tries were lost to other threads as the pool allows: try
					 * again */
	MBUFPOOL_HEAD_SPENT = 5,	/**< as many changes of the stack were made as it counts: the pool is at
					 * its end */
	MBUFPOOL_REF_SPENT = 6,		/**< the reference count is at its limit */
	MBUFPOOL_TOO_MANY_SEGS = 7,
	MBUFPOOL_NO_ROOM = 8,
	MBUFPOOL_TOO_SHORT = 9,
	MBUFPOOL_NOT_DIRECT = 10,
	MBUFPOOL_NOT_INDIRECT = 11,
	MBUFPOOL_IN_USE = 12,
	MBUFPOOL_NO_SUCH_PACKET = 13,	/**< that is no packet's slot: the packet was freed, say */
	MBUFPOOL_PACKETS_FULL = 14,	/**< too few of the worker's 256 slots are free: none, or of a bulk
					 * fewer than it asks for */
	MBUFPOOL_DESK_TAKEN = 15,
	MBUFPOOL_DESK_EMPTY = 16,
	MBUFPOOL_NO_SUCH_DESK = 17,
	MBUFPOOL_STRANGER = 19,		/**< the handle is NULL or has no worker, or the pool has no more of
					 * them */
	MBUFPOOL_SAME_PACKET = 23,
	MBUFPOOL_MISUSED = 25,		/**< (mbufpool_worker_close alone) a handle was used by another thread
					 * meanwhile: the workers are ended */
	MBUFPOOL_NOT_OUT = 26,		/**< (guarded pools alone) what was to be put isn't out: it was put before,
					 * or is none of the pool */
	MBUFPOOL_NO_MAGAZINE = 30,	/**< (all pools but those of packets) no empty magazine was at the depot */
	MBUFPOOL_NO_PART = 31,		/**< (a send alone) the worker has sent 2^56 - 1 packets more than it
					 * received */
};

/**
 * Says what a status means, in one short line: its name, and what it is answered for.
 *
 * @param status
 *   What a call answered, or any other number.
 * @return
 *   The line, without a newline: "success" for 0, and "unknown status" for what is no number of
 *   enum mbufpool_refusal. It isn't to be freed.
 */
static inline const char *mbufpool_strerror(uint32_t status)
{
	switch (status) {
	case 0:
		return "success";
	case MBUFPOOL_BAD_POOL:
		return "bad pool: a limit is out of range";
	case MBUFPOOL_NO_MEMORY:
		return "no memory: memory was refused";
	case MBUFPOOL_NO_ENTRIES:
		return "no entries: there are fewer than were asked for";
	case MBUFPOOL_CONTENDED:
		return "contended: as many tries were lost to other threads as the pool allows, try again";
	case MBUFPOOL_HEAD_SPENT:
		return "head spent: no change of the stack is left, the pool is at its end";
	case MBUFPOOL_REF_SPENT:
		return "ref spent: the reference count is at its limit";
	case MBUFPOOL_TOO_MANY_SEGS:
		return "too many segs: a packet has, or would have, more segments than the call allows";
	case MBUFPOOL_NO_ROOM:
		return "no room: too little room in the buffer, or behind the parcel";
	case MBUFPOOL_TOO_SHORT:
		return "too short: the segment has fewer bytes, or the packet fewer segments";
	case MBUFPOOL_NOT_DIRECT:
		return "not direct: the packet to attach uses another's buffer already";
	case MBUFPOOL_NOT_INDIRECT:
		return "not indirect: the packet to detach uses its own buffer";
	case MBUFPOOL_IN_USE:
		return "in use: the element has another hold, another handle a worker, or the parcel a packet";
	case MBUFPOOL_NO_SUCH_PACKET:
		return "no such packet: no packet stands in that slot, or is in the parcel";
	case MBUFPOOL_PACKETS_FULL:
		return "packets full: too few of the worker's 256 slots are free";
	case MBUFPOOL_DESK_TAKEN:
		return "desk taken: the desk isn't empty";
	case MBUFPOOL_DESK_EMPTY:
		return "desk empty: there is no packet on the desk";
	case MBUFPOOL_NO_SUCH_DESK:
		return "no such desk: the pool has no desk of that number";
	case MBUFPOOL_STRANGER:
		return "stranger: the handle has nothing of this pool, or the pool has no more to make";
	case MBUFPOOL_SAME_PACKET:
		return "same packet: both slots are one";
	case MBUFPOOL_MISUSED:
		return "misused: another thread used a worker while its pool was closed";
	case MBUFPOOL_NOT_OUT:
		return "not out: what was to be put was put before, or is none of the pool";
	case MBUFPOOL_NO_MAGAZINE:
		return "no magazine: no empty magazine was at the depot";
	case MBUFPOOL_NO_PART:
		return "no part: the worker has sent 2^56 - 1 packets more than it received";
	default:
		return "unknown status";
	}
}

/** What each handle begins as. */
#define MBUFPOOL_NONE { 0 }

/* ---- pools of values ----
 *
 * After Bonwick and Adams, "Magazines and Vmem" (USENIX 2001). A magazine is an array of values, as many as
 * the pool's magazines have room for: 8 to 128. A worker has two of them, and gets and puts as plain memory
 * while these serve. Where they don't, it exchanges a magazine at the pool's depot, which has three stacks:
 * of full ones, of empty ones, and of one at most that is partly full. A list of whatever length is got and
 * put whole, or not at all.
 *
 * A pool begins without values: a program puts what its pool is to have, and gets and puts after that. What
 * it owes of values stands at the head of this file, under "values".
 *
 * What lies in a worker's magazines no other worker gets, until it is flushed: so a get may be refused
 * MBUFPOOL_NO_ENTRIES while others have some. How many these can be depends on the pool's size: with 32
 * values or more for each worker, all workers keep at most half of the pool's values; of a smaller pool none
 * keeps any, since each of its gets and puts ends with a flush.
 *
 * What an exchange is refused for, here and below:
 *   MBUFPOOL_HEAD_SPENT  a stack was changed 2^48 - 1 times: 57 years at 10 million packets a second
 *   MBUFPOOL_CONTENDED   `tries` exchanges were lost to other threads */

/** A worker of a pool of values, or none where the pointer is null. The pointer is the library's. */
struct mbufpool_pool { void *at; };

/**
 * Makes a pool without values, and its first worker.
 *
 * @param values
 *   How many values it is to have at most. It isn't refused more, but may lack magazines then.
 * @param workers
 *   How many workers can be made of the pool in all, this one and those that are ended by then among
 *   them: 1 at least.
 * @param tries
 *   How many lost exchanges a call makes before it is refused MBUFPOOL_CONTENDED: 1 at least.
 * @param out
 *   Gets the worker. One that was in it is ended; where the call is refused, it stays.
 * @return
 *   - 0: the pool is made.
 *   - MBUFPOOL_STRANGER: `out` is NULL.
 *   - MBUFPOOL_BAD_POOL: `workers` or `tries` is 0, or it would have more than 65,534 magazines: two, three
 *     for each worker, and one for as many values as one has room for. Those are the values for each worker
 *     divided by four: 8 at least, and 128 at most.
 *   - MBUFPOOL_NO_MEMORY: memory was refused for the depot, or for the worker.
 */
uint32_t mbufpool_pool_open(uint64_t values, uint32_t workers, uint32_t tries, struct mbufpool_pool *out);

/**
 * Makes one more worker of the pool, by its first worker.
 *
 * @param pool
 *   The pool's first worker.
 * @param out
 *   Gets the new worker, without values, as mbufpool_pool_open's does.
 * @return
 *   - 0: `out` has a worker.
 *   - MBUFPOOL_STRANGER: `out` is NULL.
 *   - MBUFPOOL_STRANGER: the handle has no worker, or one that isn't the pool's first, or the pool has no
 *     more of them.
 *   - MBUFPOOL_NO_MEMORY: memory was refused for the worker.
 *   - MBUFPOOL_NO_MAGAZINE, MBUFPOOL_HEAD_SPENT, MBUFPOOL_CONTENDED: it gets no two empty magazines.
 */
uint32_t mbufpool_pool_split(struct mbufpool_pool *pool, struct mbufpool_pool *out);

/**
 * Gets n values: all of them, or none.
 *
 * @param pool
 *   Any worker of the pool.
 * @param out
 *   Gets the values. A refused get may have written to it.
 * @param n
 *   How many, 0 too.
 * @return
 *   - 0: the n values are the caller's.
 *   - MBUFPOOL_STRANGER
 *   - MBUFPOOL_NO_ENTRIES: fewer are with this worker, and the depot has no magazine with values.
 *   - MBUFPOOL_HEAD_SPENT, MBUFPOOL_CONTENDED: by an exchange.
 *   What came from the depot meanwhile may be with this worker then.
 */
uint32_t mbufpool_pool_get(struct mbufpool_pool *pool, uint64_t *out, size_t n);

/**
 * Gets one value, as mbufpool_pool_get does, in fewer instructions.
 *
 * @param pool
 *   Any worker of the pool.
 * @param out
 *   Gets the value; where the call is refused, it is as it was.
 * @return
 *   What mbufpool_pool_get answers.
 */
uint32_t mbufpool_pool_get_one(struct mbufpool_pool *pool, uint64_t *out);

/**
 * Puts n values: all of them, or none.
 *
 * @param pool
 *   Any worker of the pool.
 * @param list
 *   The values, of which is owed what stands at the head of this file.
 * @param n
 *   How many, 0 too.
 * @return
 *   - 0: they are with this worker, or at the depot.
 *   - MBUFPOOL_STRANGER
 *   - MBUFPOOL_NO_MAGAZINE: the worker has no room for them, and the depot no empty magazine. That isn't
 *     met while the pool has no more values than it was opened for.
 *   - MBUFPOOL_HEAD_SPENT, MBUFPOOL_CONTENDED: by an exchange.
 *   The caller has them still where they are refused.
 */
uint32_t mbufpool_pool_put(struct mbufpool_pool *pool, const uint64_t *list, size_t n);

/**
 * Puts one value, as mbufpool_pool_put does, in fewer instructions.
 *
 * @param pool
 *   Any worker of the pool.
 * @param value
 *   The value.
 * @return
 *   What mbufpool_pool_put answers.
 */
uint32_t mbufpool_pool_put_one(struct mbufpool_pool *pool, uint64_t value);

/**
 * Gives all values in a worker's magazines to the depot, where the pool's other workers can get them.
 *
 * @param pool
 *   Any worker of the pool.
 * @return
 *   - 0: the worker's magazines are empty.
 *   - MBUFPOOL_STRANGER
 *   - MBUFPOOL_NO_MAGAZINE, MBUFPOOL_HEAD_SPENT, MBUFPOOL_CONTENDED: what hasn't gone is with the worker
 *     still.
 */
uint32_t mbufpool_pool_flush(struct mbufpool_pool *pool);

/**
 * Says what the calls of a worker have put less what they got, modulo 2^64.
 *
 * The counts of all workers of a pool, those that are ended by then too, add up to the values that are in
 * it: in their magazines, and at the depot.
 *
 * @param pool
 *   Any worker of the pool.
 * @param out
 *   Gets the count; where the call is refused, it is as it was.
 * @return
 *   - 0: it is said.
 *   - MBUFPOOL_STRANGER
 */
uint32_t mbufpool_pool_count(struct mbufpool_pool *pool, uint64_t *out);

/** A magazine in memory: how many values it has, and these. */
struct mbufpool_magazine { uint64_t unused[7], count, values[128]; };

/**
 * Says where a magazine of the pool lies: the one in front of this worker. mbufpool_pool_magazines says
 * where all are.
 *
 * @param pool
 *   Any worker of the pool.
 * @param front
 *   Gets where it lies: a struct mbufpool_magazine.
 * @param number
 *   Gets its number, from 0.
 * @param count
 *   Gets how many there are, side by side, by their numbers. Where the call is refused, all three are as
 *   they were.
 * @return
 *   - 0: it is said.
 *   - MBUFPOOL_STRANGER
 */
uint32_t mbufpool_pool_front(struct mbufpool_pool *pool, void **front, uint64_t *number, uint64_t *count);

/**
 * Says where the magazines of a pool of values lie, for readers of a core or of a running program: what
 * stands in any of them is in the pool, and nothing else is. They are one array of struct
 * mbufpool_magazine, of the pool's workers and of its depot, which stays where it is until the pool is
 * freed. While threads are within calls, what is read may be old or half written.
 *
 * @param pool
 *   Any worker of the pool, or NULL.
 * @param address
 *   Gets the address of the first.
 * @param count
 *   Gets how many there are.
 * @param bytes
 *   Gets how many bytes each has. Where the call is refused, all three are as they were.
 * @return
 *   - 0: it is said.
 *   - MBUFPOOL_STRANGER
 */
static inline uint32_t mbufpool_pool_magazines(struct mbufpool_pool *pool, uint64_t *address,
	uint64_t *count, uint64_t *bytes)
{
	void *front = NULL;
	uint64_t number = 0;
	uint32_t status = MBUFPOOL_STRANGER;

	if (pool != NULL)
		status = mbufpool_pool_front(pool, &front, &number, count);
	if (status != 0)
		return status;
	*bytes = sizeof(struct mbufpool_magazine);
	*address = (uint64_t)(uintptr_t)front - number * *bytes;
	return 0;
}

/**
 * Ends a worker, once what is in its magazines is at the depot. What the depot refuses is lost.
 *
 * What the worker has got and not put may still be put, by any other worker. Once the first worker is ended
 * no more are made.
 *
 * @param pool
 *   The worker; the handle has zeros then.
 */
void mbufpool_pool_end(struct mbufpool_pool *pool);

/* ---- guarded pools ----
 *
 * An element is out from the get that gives it until a put takes it. All others are in the pool: at the
 * depot, which is one as a pool of values has, in a worker's two magazines, or in its list. Each has a word
 * of its own, with the number of the worker by which it is out, or in whose list it is; else 0. So a put says
 * of any number whether it is out, whichever worker got it, and the caller owes nothing of elements: any
 * numbers may be put, by any worker, in any thread. What a worker got and puts itself takes a look at that
 * word, and no exchange. What another got is taken by one exchange of its word, so that of two puts of one
 * element at once one is refused.
 *
 * What a worker put and keeps in its list has its number still. Another worker's put of that, which isn't
 * out, can't be told from one of an element that is out by the first: it is answered 0. The element is in
 * the pool once then, with the worker that put it last; the first finds its entry stale when it comes to it,
 * drops it, and mbufpool_guard_stale tells which it was.
 *
 * What a worker gets and puts:
 *
 *   a put   of what it got itself is into its list. Where that has more than `cache` besides those that
 *           wait, all but `cache` / 2 of these go to its magazines, those that were put first. What another
 *           worker got goes to its magazines, or where elements are to wait, into its list.
 *   a get   is from its list while that has more than `waiting`: the element that was put last, or where
 *           elements are to wait, of those that have waited the last. Then it is from its magazines and the depot,
 *           as of a pool of values, and where these have none, from those that wait.
 *
 * What lies in a worker's list and in its magazines no other worker gets, until it is flushed: so a get may
 * be refused MBUFPOOL_NO_ENTRIES while others have some. */

/** A worker of a guarded pool, or none where the pointer is null. The pointer is the library's. */
struct mbufpool_guard { void *at; };

/**
 * Makes a guarded pool and its first worker, with which all elements are out: the pool is to have what is
 * put, by that worker or another.
 *
 * The pool takes 8 bytes for each element in its words, and its magazines; each worker takes a byte for each
 * element, and 4 for each that it keeps in its list.
 *
 * @param population
 *   How many elements: 1 to 16,777,214.
 * @param cache
 *   How many elements that it put a worker keeps in its list, besides those that wait: 0 to 512.
 * @param waiting
 *   How many elements that it put last wait at a worker, before it gives them again: 0 to 1,048,576. It
 *   gives others first, as long as it gets some.
 * @param workers
 *   How many workers can be made of the pool in all, this one and those that are ended by then among
 *   them: 1 to 1,024.
 * @param tries
 *   How many lost exchanges a call makes before it is refused MBUFPOOL_CONTENDED: 1 to 1,000,000.
 * @param out
 *   Gets the worker. One that was in it is ended; where the call is refused, it stays.
 * @return
 *   - 0: the pool is made.
 *   - MBUFPOOL_STRANGER: `out` is NULL.
 *   - MBUFPOOL_BAD_POOL: one of the five numbers is out of range, or the pool would have more than 65,534
 *     magazines, as many as a pool of values has: for one worker from 8,387,840 elements on, for 1,024 from
 *     7,995,008 on.
 *   - MBUFPOOL_NO_MEMORY: memory was refused for the depot, or for the worker.
 *   - MBUFPOOL_NO_MAGAZINE, MBUFPOOL_HEAD_SPENT, MBUFPOOL_CONTENDED: it gets no two empty magazines. No run
 *     has met it.
 */
uint32_t mbufpool_guard_open(uint32_t population, uint32_t cache, uint32_t waiting, uint32_t workers,
	uint32_t tries, struct mbufpool_guard *out);

/**
 * Makes one more worker of the pool, by its first worker.
 *
 * @param worker
 *   The pool's first worker.
 * @param out
 *   Gets the new worker, which keeps nothing, as mbufpool_guard_open's does.
 * @return
 *   - 0: `out` has a worker.
 *   - MBUFPOOL_STRANGER: `out` is NULL.
 *   - MBUFPOOL_STRANGER: the handle has no worker, or one that isn't the pool's first, or the pool has no
 *     more of them.
 *   - MBUFPOOL_NO_MEMORY: memory was refused for the worker.
 *   - MBUFPOOL_NO_MAGAZINE, MBUFPOOL_HEAD_SPENT, MBUFPOOL_CONTENDED: it gets no two empty magazines.
 */
uint32_t mbufpool_guard_split(struct mbufpool_guard *worker, struct mbufpool_guard *out);

/**
 * Gets n elements: all of them, or none. Each is out then, until somebody puts it.
 *
 * @param worker
 *   Any worker of the pool.
 * @param out
 *   Gets the numbers of the elements. A refused get may have written to it.
 * @param n
 *   How many, 0 too.
 * @return
 *   - 0: the n elements are the caller's.
 *   - MBUFPOOL_STRANGER
 *   - MBUFPOOL_NO_ENTRIES: fewer are with this worker, and the depot has no magazine with elements.
 *   - MBUFPOOL_HEAD_SPENT, MBUFPOOL_CONTENDED: by an exchange at the depot.
 *   What it had got by then is put again, but for what the worker's full list and the depot both refuse,
 *   which stays out; and what came from the depot meanwhile may be with this worker.
 */
uint32_t mbufpool_guard_get(struct mbufpool_guard *worker, uint32_t *out, size_t n);

/**
 * Gets one element, as mbufpool_guard_get does, in fewer instructions.
 *
 * @param worker
 *   Any worker of the pool.
 * @param out
 *   Gets the number of the element; where the call is refused, it is as it was.
 * @return
 *   What mbufpool_guard_get answers.
 */
uint32_t mbufpool_guard_get_one(struct mbufpool_guard *worker, uint32_t *out);

/**
 * Puts numbers, one after another, until one is refused.
 *
 * @param worker
 *   Any worker of the pool, whichever got them.
 * @param list
 *   Any numbers.
 * @param n
 *   How many numbers, 0 too.
 * @param taken
 *   Gets how many were put: those before the one that is refused. Those behind that weren't looked at.
 * @return
 *   - 0: all n are put.
 *   - MBUFPOOL_STRANGER
 *   - MBUFPOOL_NOT_OUT: list[*taken] isn't out: it was put before, by whichever worker, or earlier in this
 *     list, or while this call looked; or it is none of the pool.
 *   - MBUFPOOL_NO_MAGAZINE, MBUFPOOL_HEAD_SPENT, MBUFPOOL_CONTENDED: there is no room for list[*taken] with
 *     this worker, and the depot refused what is to make some. It wasn't looked at, and is where it was.
 */
uint32_t mbufpool_guard_put(struct mbufpool_guard *worker, const uint32_t *list, size_t n,
	uint64_t *taken);

/**
 * Puts one number, as mbufpool_guard_put does, in fewer instructions.
 *
 * @param worker
 *   Any worker of the pool.
 * @param element
 *   Any number.
 * @return
 *   What mbufpool_guard_put answers of a list of it.
 */
uint32_t mbufpool_guard_put_one(struct mbufpool_guard *worker, uint32_t element);

/**
 * Gives all that a worker keeps, in its list and its magazines, to the depot, where the pool's other workers
 * can get it.
 *
 * @param worker
 *   Any worker of the pool.
 * @return
 *   - 0: the worker keeps nothing.
 *   - MBUFPOOL_STRANGER
 *   - MBUFPOOL_NO_MAGAZINE, MBUFPOOL_HEAD_SPENT, MBUFPOOL_CONTENDED: what hasn't gone is with the worker
 *     still.
 */
uint32_t mbufpool_guard_flush(struct mbufpool_guard *worker);

/**
 * Says what the calls of a worker have put less what they got, modulo 2^64.
 *
 * The counts of all workers of a pool, those that are ended by then too, and the population add up to the
 * elements that are in it, once each stale entry is found.
 *
 * @param worker
 *   Any worker of the pool.
 * @param out
 *   Gets the count; where the call is refused, it is as it was.
 * @return
 *   - 0: it is said.
 *   - MBUFPOOL_STRANGER
 */
uint32_t mbufpool_guard_count(struct mbufpool_guard *worker, uint64_t *out);

/**
 * Tells an element that this worker had put, and another worker put again while it wasn't out: the oldest
 * that this worker has found and not told yet. A worker finds it when it comes to the element in its list,
 * by a get, a put or a flush, and has up to 64 in store; what it finds beyond these isn't told.
 *
 * @param worker
 *   Any worker of the pool.
 * @param out
 *   Gets the number of the element; where the call is refused, it is as it was.
 * @return
 *   - 0: it is told, and in the store no more.
 *   - MBUFPOOL_STRANGER
 *   - MBUFPOOL_NO_ENTRIES: none is in store.
 */
uint32_t mbufpool_guard_stale(struct mbufpool_guard *worker, uint32_t *out);

/**
 * Ends a worker, once what it keeps is at the depot. What the depot refuses is lost.
 *
 * What the worker has got and not put may still be put, by any other worker. Once the first worker is ended
 * no more are made.
 *
 * @param worker
 *   The worker; the handle has zeros then.
 */
void mbufpool_guard_end(struct mbufpool_guard *worker);

/* ---- packets ----
 *
 * A packet has 1 to 32 segments. A segment is an element with the offset and the length of its data, and
 * the length of its buffer. It is direct where it uses its own element's buffer, and indirect where it
 * uses another's, as a clone's does. The library keeps these numbers; the buffers are the caller's.
 *
 * Each call from mbufpool_worker_alloc to mbufpool_worker_flush is one act of its worker, but for a send
 * and a receive, which read words of the pool and write none. What is put back, when the last hold of an
 * element ends, goes through the worker's cache, as an element that is got. `out` is written where the
 * answer is 0.
 *
 * How a cache of the size `cache` serves:
 *
 *   a get   of fewer than `cache` is from the cache. Where that has too few it is filled up first, so
 *           that it has `cache` left. Where the stack hasn't so many, or refuses them, or n + cache is
 *           above the population, and where n is `cache` or more, all n come from the stack. The stack's
 *           last refusal is the answer then, and the cache is as before: so a get may be refused though
 *           cache and stack together have enough.
 *   a put   is into the cache. Once that is above `cache` by it and reaches three halves of it, all
 *           beyond `cache` goes to the stack by one put; a list of more than 512 goes there past the
 *           cache. What the stack refuses isn't lost, nor told: it stays in the cache, and goes there
 *           with the next.
 *
 * What the stack refuses:
 *
 *   a get   reserves n elements by the stack's length word, and then takes them off its head:
 *             MBUFPOOL_NO_ENTRIES  the length word counts fewer than n
 *             MBUFPOOL_CONTENDED   `tries` goes at the length word were lost
 *             MBUFPOOL_HEAD_SPENT  no change of the head is left
 *             MBUFPOOL_CONTENDED   `tries` goes at the head were lost
 *           What was reserved is given back then. Until that is done others count fewer, and may be
 *           refused MBUFPOOL_NO_ENTRIES.
 *   a put   links n elements, and adds them to the head, and to the length word afterwards:
 *             MBUFPOOL_HEAD_SPENT  as of a get
 *             MBUFPOOL_CONTENDED   `tries` goes at the head were lost
 *
 * Each get and each put that succeeds, of whatever length but 0, takes one of 2^40 - 1 changes.
 *
 * A worker has its packets in 256 places, and a packet is named by its slot: its place in the low 8 bits,
 * and above them how many packets went from that place before, modulo 2^24. A packet goes from its place
 * where it is freed, chained behind another, offered or sent, and its slot stands for nothing then: it is
 * refused by MBUFPOOL_NO_SUCH_PACKET, also where the next packet stands in that place, until 2^24 packets
 * went from there and the slots begin again. So is every other number that is no packet's slot.
 *
 * mbufpool_worker_alloc, alloc_bulk, free, clone, chain, attach, detach, append, prepend, trim and adj
 * are after the calls of DPDK 21.11 that have these words behind rte_pktmbuf_; refcnt is after
 * rte_mbuf_refcnt_read, pkt_len and nb_segs after those fields of struct rte_mbuf, and flush after
 * rte_mempool_cache_flush. Unlike there a chain has 32 segments at most, and a reference count a limit of
 * the pool's.
 *
 * DPDK passes an mbuf from lcore to lcore by its pointer, over an rte_ring. mbufpool_worker_send and
 * mbufpool_worker_receive are the same with the packet's bytes in the caller's memory, and the pointer
 * to these on the ring. An array of parcels, one for each element, needs no memory later: a packet is
 * sent in that of its first element, which no other packet has for its own while it stands or is under
 * way. mbufpool_parcel_pack makes one pointer of a parcel, and where the packet is one direct segment that
 * pointer is the whole parcel: no memory passes with it, which is faster. Desks are the library's own, and
 * need no ring. */

/** A worker, or none where the pointer is null. The pointer is the library's. */
struct mbufpool_worker { void *at; };

/** What a pool of packets is made of. */
struct mbufpool_limits {
	uint32_t population;	/**< elements, 1 to 16,777,214 */
	uint32_t cache;		/**< elements that a worker's cache keeps, 0 to 512, three halves of it,
				 * rounded down, at most the population */
	uint32_t workers;	/**< 1 to 64 */
	uint32_t desks;		/**< 0 to 64 */
	uint32_t buf;		/**< bytes in an element's buffer, 0 to 65,535 */
	uint32_t ref_limit;	/**< the greatest reference count, 1 to 65,535 */
	uint32_t tries;		/**< lost tries before MBUFPOOL_CONTENDED, 1 to 1,000,000 */
};

/** A new packet: its slot, and its first segment's element. */
struct mbufpool_packet { uint32_t slot, element; };

/** The place of a slot among its worker's, 0 to 255: of the packets that a worker has no two share one. */
#define MBUFPOOL_PLACE(slot) ((slot) & 255u)

/**
 * A segment of a packet: its own element, the one whose buffer has its data (another one where the
 * segment is a clone's), and in bytes where the data begins there, how long it is, and how long the
 * buffer is.
 */
struct mbufpool_segment { uint32_t element, buffer; uint16_t off, len, buf; };

/**
 * Makes a pool of packets, all its elements on the common stack, and its workers, who have nothing yet.
 *
 * @param limits
 *   What it is made of.
 * @param out
 *   The handles, which get the workers: worker 1 out[0], worker n out[n - 1]. Workers that were in them
 *   are ended; where the call is refused, they stay.
 * @param n
 *   How many handles: limits->workers.
 * @return
 *   - 0: the pool is made.
 *   - MBUFPOOL_STRANGER: `out` is NULL, and n isn't 0.
 *   - MBUFPOOL_BAD_POOL: n isn't limits->workers, or a limit is out of range.
 *   - MBUFPOOL_NO_MEMORY: memory was refused; each worker's cache has room for the whole population.
 */
uint32_t mbufpool_worker_open(const struct mbufpool_limits *limits, struct mbufpool_worker *out,
	size_t n);

/**
 * Ends a worker.
 *
 * @param worker
 *   The worker; the handle has zeros then. What it has is lost to the pool, so free its packets and flush
 *   it first, or close the pool instead (mbufpool_worker_close).
 */
void mbufpool_worker_end(struct mbufpool_worker *worker);

/**
 * Makes a packet of one element, without data, in the lowest free place. Its data begins at byte 128 of
 * the buffer, or at the end of a shorter one.
 *
 * @param worker
 *   The worker whose packet it is.
 * @param out
 *   Gets slot and element.
 * @return
 *   - 0: the packet stands.
 *   - MBUFPOOL_STRANGER
 *   - MBUFPOOL_PACKETS_FULL: no place is free.
 *   - MBUFPOOL_NO_ENTRIES, MBUFPOOL_CONTENDED, MBUFPOOL_HEAD_SPENT: by the stack, as a get of one, where
 *     the cache can't serve it.
 */
uint32_t mbufpool_worker_alloc(struct mbufpool_worker *worker, struct mbufpool_packet *out);

/**
 * Makes n packets as mbufpool_worker_alloc does, by one get: all of them, or none.
 *
 * @param worker
 *   The worker whose packets they are.
 * @param out
 *   Gets slot and element of each.
 * @param n
 *   How many: 0 to 256.
 * @return
 *   - 0: the packets stand.
 *   - MBUFPOOL_STRANGER
 *   - MBUFPOOL_PACKETS_FULL: fewer than n places are free.
 *   - MBUFPOOL_NO_ENTRIES, MBUFPOOL_CONTENDED, MBUFPOOL_HEAD_SPENT: as mbufpool_worker_alloc, of n.
 */
uint32_t mbufpool_worker_alloc_bulk(struct mbufpool_worker *worker, struct mbufpool_packet *out,
	size_t n);

/**
 * Frees a packet: each of its holds ends, of a segment the one of another's buffer first, and an element of
 * which that was the last is put back. It goes from its place.
 *
 * @param worker
 *   The worker whose packet it is.
 * @param slot
 *   The packet.
 * @return
 *   - 0: it is freed, also where the stack refuses what goes there: that stays in the cache.
 *   - MBUFPOOL_STRANGER
 *   - MBUFPOOL_NO_SUCH_PACKET
 */
uint32_t mbufpool_worker_free(struct mbufpool_worker *worker, uint32_t slot);

/**
 * Adds bytes behind the data of a packet's last segment.
 *
 * @param worker
 *   The worker whose packet it is.
 * @param slot
 *   The packet.
 * @param len
 *   How many bytes: 0 to what the last segment's buffer has behind its data.
 * @param pkt_len
 *   Gets the packet's new length in bytes, the sum of its segments'.
 * @return
 *   - 0: the segment is longer.
 *   - MBUFPOOL_STRANGER
 *   - MBUFPOOL_NO_SUCH_PACKET
 *   - MBUFPOOL_NO_ROOM: its buffer has fewer bytes there.
 */
uint32_t mbufpool_worker_append(struct mbufpool_worker *worker, uint32_t slot, uint16_t len,
	uint32_t *pkt_len);

/**
 * Adds bytes in front of the data of a packet's first segment.
 *
 * @param worker,slot,pkt_len
 *   As mbufpool_worker_append has them.
 * @param len
 *   How many bytes: 0 to what the first segment's buffer has in front of its data.
 * @return
 *   What mbufpool_worker_append answers, of the first segment.
 */
uint32_t mbufpool_worker_prepend(struct mbufpool_worker *worker, uint32_t slot, uint16_t len,
	uint32_t *pkt_len);

/**
 * Takes bytes off the front of a packet's first segment.
 *
 * @param worker,slot,pkt_len
 *   As mbufpool_worker_append has them.
 * @param len
 *   How many bytes: 0 to what that segment has of data, whatever the packet has.
 * @return
 *   - 0: the segment is shorter.
 *   - MBUFPOOL_STRANGER
 *   - MBUFPOOL_NO_SUCH_PACKET
 *   - MBUFPOOL_TOO_SHORT: it has fewer bytes of data.
 */
uint32_t mbufpool_worker_adj(struct mbufpool_worker *worker, uint32_t slot, uint16_t len,
	uint32_t *pkt_len);

/**
 * Takes bytes off the end of a packet's last segment.
 *
 * @param worker,slot,len,pkt_len
 *   As mbufpool_worker_adj has them, of the last segment.
 * @return
 *   What mbufpool_worker_adj answers, of the last segment.
 */
uint32_t mbufpool_worker_trim(struct mbufpool_worker *worker, uint32_t slot, uint16_t len,
	uint32_t *pkt_len);

/**
 * Puts the segments of one packet behind those of another.
 *
 * @param worker
 *   The worker whose packets both are.
 * @param head
 *   The packet that gets longer.
 * @param tail
 *   The packet whose segments it gets; it goes from its place.
 * @return
 *   - 0: they are one packet.
 *   - MBUFPOOL_STRANGER
 *   - MBUFPOOL_NO_SUCH_PACKET: of `head`, or of `tail`.
 *   - MBUFPOOL_SAME_PACKET: `head` is `tail`.
 *   - MBUFPOOL_TOO_MANY_SEGS: together they have more than 32 segments.
 */
uint32_t mbufpool_worker_chain(struct mbufpool_worker *worker, uint32_t head, uint32_t tail);

/**
 * Lets a packet of one direct segment use the buffer of another packet's first segment, with its offset and
 * lengths. The element whose buffer that is has one hold more.
 *
 * @param worker
 *   The worker whose packets both are.
 * @param slot
 *   The packet to attach.
 * @param target
 *   The packet whose buffer it uses then; where that is indirect itself, the buffer that this one uses.
 * @return
 *   - 0: it is attached.
 *   - MBUFPOOL_STRANGER
 *   - MBUFPOOL_NO_SUCH_PACKET: of `slot`, or of `target`.
 *   - MBUFPOOL_SAME_PACKET: `slot` is `target`.
 *   - MBUFPOOL_TOO_MANY_SEGS: the packet to attach has several segments.
 *   - MBUFPOOL_NOT_DIRECT: its segment is indirect.
 *   - MBUFPOOL_IN_USE: a reference count other than 1 was read of its element, as of one with a clone.
 *   - MBUFPOOL_REF_SPENT: the count of the element whose buffer it is to use is `ref_limit`.
 *   - MBUFPOOL_CONTENDED: `tries` exchanges of that count were lost.
 */
uint32_t mbufpool_worker_attach(struct mbufpool_worker *worker, uint32_t slot, uint32_t target);

/**
 * Gives a packet of one indirect segment its own buffer back: it is as a new one then, without data.
 *
 * @param worker
 *   The worker whose packet it is.
 * @param slot
 *   The packet. Its hold of the other buffer's element ends.
 * @return
 *   - 0: it is detached; what the stack refuses stays in the cache, as where it is freed.
 *   - MBUFPOOL_STRANGER
 *   - MBUFPOOL_NO_SUCH_PACKET
 *   - MBUFPOOL_TOO_MANY_SEGS: it has several segments.
 *   - MBUFPOOL_NOT_INDIRECT: its segment is direct.
 */
uint32_t mbufpool_worker_detach(struct mbufpool_worker *worker, uint32_t slot);

/**
 * Makes a clone of a packet, in the lowest free place: a new element for each of its segments, which is
 * attached to the segment's buffer.
 *
 * @param worker
 *   The worker whose packet it is, and whose clone.
 * @param slot
 *   The packet.
 * @param out
 *   Gets the clone's slot, and its first segment's own element.
 * @return
 *   - 0: the clone stands.
 *   - MBUFPOOL_STRANGER
 *   - MBUFPOOL_NO_SUCH_PACKET
 *   - MBUFPOOL_PACKETS_FULL: no place is free.
 *   And then, of one segment after another:
 *   - MBUFPOOL_NO_ENTRIES, MBUFPOOL_CONTENDED, MBUFPOOL_HEAD_SPENT: as mbufpool_worker_alloc.
 *   - MBUFPOOL_REF_SPENT, MBUFPOOL_CONTENDED: as mbufpool_worker_attach.
 *   What was cloned so far is put back then, so that other free elements than before may be in the cache,
 *   and fewer changes of the stack may be left.
 */
uint32_t mbufpool_worker_clone(struct mbufpool_worker *worker, uint32_t slot,
	struct mbufpool_packet *out);

/**
 * Leaves a packet on a desk, with all that it holds, for a worker that takes it.
 *
 * @param worker
 *   The worker whose packet it is.
 * @param slot
 *   The packet; it goes from its place.
 * @param desk
 *   The desk: 0 to the pool's number of desks less 1.
 * @return
 *   - 0: the packet is on the desk.
 *   - MBUFPOOL_STRANGER
 *   - MBUFPOOL_NO_SUCH_PACKET
 *   - MBUFPOOL_NO_SUCH_DESK: the pool has no desk of that number.
 *   - MBUFPOOL_DESK_TAKEN: a packet is on it, or another worker is just putting one there or taking it.
 */
uint32_t mbufpool_worker_offer(struct mbufpool_worker *worker, uint32_t slot, uint32_t desk);

/**
 * Takes the packet off a desk, into the lowest free place.
 *
 * @param worker
 *   The worker whose packet it is then.
 * @param desk
 *   The desk, as mbufpool_worker_offer has it.
 * @param slot
 *   Gets the packet's slot.
 * @return
 *   - 0: the packet stands.
 *   - MBUFPOOL_STRANGER
 *   - MBUFPOOL_NO_SUCH_DESK: as mbufpool_worker_offer.
 *   - MBUFPOOL_PACKETS_FULL: no place is free.
 *   - MBUFPOOL_DESK_EMPTY: there is no packet on it, or another worker is just putting one there or
 *     taking it.
 */
uint32_t mbufpool_worker_take(struct mbufpool_worker *worker, uint32_t desk, uint32_t *slot);

/** A segment of a packet that is under way, as it is written: 16 bytes. */
struct mbufpool_parcel_segment {
	uint32_t element;	/**< its own element */
	uint32_t base;		/**< the element whose buffer has its data, where `indirect` is 1; else 0 */
	uint16_t off;		/**< where its data begins in the buffer, in bytes */
	uint16_t len;		/**< how long its data is */
	uint16_t buf;		/**< how long the buffer is */
	uint16_t indirect;	/**< 1 where the buffer is another element's, as a clone's is; else 0 */
};

/**
 * A packet that is under way, or none where `segments` is 0. Its segments lie right behind it, from
 * `parcel + 1` on: so a struct of a parcel and an array of segments has room for as many.
 */
struct mbufpool_parcel { uint32_t segments; };

/**
 * Says how many bytes a parcel takes: 4, and 16 for each segment. It begins at any address that is
 * divisible by 4.
 *
 * @param segments
 *   For how many segments it has room: 32 are enough for any packet.
 * @return
 *   The bytes, 20 for one segment.
 */
static inline size_t mbufpool_parcel_size(uint32_t segments)
{
	return sizeof(struct mbufpool_parcel) + segments * sizeof(struct mbufpool_parcel_segment);
}

/**
 * Takes a packet out of its place, and writes it as a parcel, whose segments lie where the caller says.
 * mbufpool_worker_send has them behind the parcel.
 *
 * @param worker,slot,out
 *   As mbufpool_worker_send has them.
 * @param segments
 *   Gets the segments.
 * @param room
 *   For how many segments there is room.
 * @return
 *   What mbufpool_worker_send answers.
 */
uint32_t mbufpool_worker_send_segments(struct mbufpool_worker *worker, uint32_t slot,
	struct mbufpool_parcel *out, struct mbufpool_parcel_segment *segments, size_t room);

/**
 * Brings the packet of a parcel into the lowest free place, by segments that lie where the caller says.
 * mbufpool_worker_receive has them behind the parcel.
 *
 * @param worker,parcel,slot
 *   As mbufpool_worker_receive has them.
 * @param segments
 *   The segments, as they were written.
 * @param n
 *   How many they are: parcel->segments.
 * @return
 *   What mbufpool_worker_receive answers.
 */
uint32_t mbufpool_worker_receive_segments(struct mbufpool_worker *worker, struct mbufpool_parcel *parcel,
	const struct mbufpool_parcel_segment *segments, size_t n, uint32_t *slot);

/**
 * Takes a packet out of its place, and writes it as a parcel, which any worker of the pool may receive.
 *
 * All that the packet holds goes with it: its elements, and a clone's hold of the buffer that it uses. No
 * reference count changes, and its clones and its bases stay where they are. No memory is taken, and no
 * lock. What is owed of a parcel stands at the head of this file, under "parcels".
 *
 * @param worker
 *   The worker whose packet it is.
 * @param slot
 *   The packet; it goes from its place.
 * @param out
 *   Gets the parcel, with the segments behind it. It begins with zeros in `segments`, and has zeros
 *   there again once it was received.
 * @param room
 *   For how many segments there is room behind `out`.
 * @return
 *   - 0: the packet is under way.
 *   - MBUFPOOL_STRANGER
 *   - MBUFPOOL_IN_USE: in `out` is a parcel that wasn't received.
 *   - MBUFPOOL_NO_SUCH_PACKET
 *   - MBUFPOOL_NO_ROOM: the packet has more segments than `room`.
 *   - MBUFPOOL_NO_PART: the worker has sent 2^56 - 1 packets more than it received.
 */
static inline uint32_t mbufpool_worker_send(struct mbufpool_worker *worker, uint32_t slot,
	struct mbufpool_parcel *out, uint32_t room)
{
	if (worker == NULL)
		return MBUFPOOL_STRANGER;
	return mbufpool_worker_send_segments(worker, slot, out, (struct mbufpool_parcel_segment *)(out + 1),
		room);
}

/**
 * Brings the packet of a parcel into the lowest free place, with all that it holds.
 *
 * @param worker
 *   The worker whose packet it is then.
 * @param parcel
 *   The parcel, with its segments behind it; it has zeros in `segments` then.
 * @param slot
 *   Gets the packet's slot.
 * @return
 *   - 0: the packet stands.
 *   - MBUFPOOL_STRANGER
 *   - MBUFPOOL_NO_SUCH_PACKET: there is no parcel: `segments` is 0, since it was received, say.
 *   - MBUFPOOL_PACKETS_FULL: no place is free. The parcel stays.
 */
static inline uint32_t mbufpool_worker_receive(struct mbufpool_worker *worker,
	struct mbufpool_parcel *parcel, uint32_t *slot)
{
	if (worker == NULL)
		return MBUFPOOL_STRANGER;
#if defined(__x86_64__) && defined(__GNUC__)
	/* Its cache line comes from the lcore that wrote it, and is written here: one way, not two. */
	__asm__ volatile("prefetchw %0" : : "m"(*parcel));
#endif
	return mbufpool_worker_receive_segments(worker, parcel,
		(const struct mbufpool_parcel_segment *)(parcel + 1), parcel->segments, slot);
}

/**
 * Makes one pointer of a parcel, for a queue of pointers as an rte_ring is.
 *
 * Where the packet is one direct segment, the pointer has all that the parcel says: it is odd and leads
 * nowhere, and the parcel is empty then, as one that was received. Else, as for a clone or a chain, the
 * pointer is the parcel's address. No library is called.
 *
 * @param parcel
 *   The parcel, with its segments behind it.
 * @param buf
 *   The bytes in an element's buffer, as struct mbufpool_limits has them.
 * @return
 *   The pointer, of which mbufpool_parcel_unpack makes the parcel again: once, as a parcel is received.
 */
static inline void *mbufpool_parcel_pack(struct mbufpool_parcel *parcel, uint32_t buf)
{
	const struct mbufpool_parcel_segment *of = (const struct mbufpool_parcel_segment *)(parcel + 1);

	if (sizeof(void *) < sizeof(uint64_t) || parcel->segments != 1 || of->indirect || of->buf != buf)
		return parcel;
	parcel->segments = 0;
	/* Bit 0 is 1, and above it are the length, the offset, and the element of less than 2^24. */
	return (void *)(uintptr_t)((uint64_t)of->element << 33 | (uint64_t)of->off << 17 |
		(uint64_t)of->len << 1 | 1);
}

/**
 * Makes the parcel again of a pointer from mbufpool_parcel_pack.
 *
 * @param packed
 *   The pointer.
 * @param buf
 *   As mbufpool_parcel_pack had it.
 * @param room
 *   Gets the parcel where the pointer has it: of one segment, which is written behind it. Else it stays.
 * @return
 *   The parcel: `room`, or the one whose address the pointer is.
 */
static inline struct mbufpool_parcel *mbufpool_parcel_unpack(void *packed, uint32_t buf,
	struct mbufpool_parcel *room)
{
	struct mbufpool_parcel_segment *of = (struct mbufpool_parcel_segment *)(room + 1);
	const uint64_t word = (uintptr_t)packed;

	if (!(word & 1))
		return (struct mbufpool_parcel *)packed;
	room->segments = 1;
	of->element = (uint32_t)(word >> 33);
	of->base = 0;
	of->off = (uint16_t)(word >> 17);
	of->len = (uint16_t)(word >> 1);
	of->buf = (uint16_t)buf;
	of->indirect = 0;
	return room;
}

/**
 * Says how many holds all packets of the pool have of the element of a packet's first segment.
 *
 * @param worker
 *   The worker whose packet it is.
 * @param slot
 *   The packet.
 * @param references
 *   Gets the reference count of the segment's own element, 1 to `ref_limit`, as it was at one moment of
 *   the call.
 * @return
 *   - 0: it is said.
 *   - MBUFPOOL_STRANGER
 *   - MBUFPOOL_NO_SUCH_PACKET
 */
uint32_t mbufpool_worker_refcnt(struct mbufpool_worker *worker, uint32_t slot,
	uint32_t *references);

/**
 * Says how long a packet is.
 *
 * @param worker,slot,pkt_len
 *   As mbufpool_worker_append has them.
 * @return
 *   What mbufpool_worker_refcnt answers.
 */
uint32_t mbufpool_worker_pkt_len(struct mbufpool_worker *worker, uint32_t slot, uint32_t *pkt_len);

/**
 * Says how many segments a packet has.
 *
 * @param worker,slot
 *   As mbufpool_worker_refcnt has them.
 * @param segments
 *   Gets how many: 1 to 32.
 * @return
 *   What mbufpool_worker_refcnt answers.
 */
uint32_t mbufpool_worker_nb_segs(struct mbufpool_worker *worker, uint32_t slot, uint32_t *segments);

/**
 * Says what a segment of a packet is.
 *
 * @param worker,slot
 *   As mbufpool_worker_refcnt has them.
 * @param index
 *   The segment: 0 to mbufpool_worker_nb_segs less 1.
 * @param out
 *   Gets what it is.
 * @return
 *   - 0: it is said.
 *   - MBUFPOOL_STRANGER
 *   - MBUFPOOL_NO_SUCH_PACKET
 *   - MBUFPOOL_TOO_SHORT: the packet has no more segments than `index`.
 */
uint32_t mbufpool_worker_segment(struct mbufpool_worker *worker, uint32_t slot, uint32_t index,
	struct mbufpool_segment *out);

/**
 * Puts the worker's whole cache onto the common stack, by one put.
 *
 * @param worker
 *   The worker.
 * @return
 *   - 0: it is done, or the stack refused it, as a put, and the elements are in the cache still.
 *   - MBUFPOOL_STRANGER
 */
uint32_t mbufpool_worker_flush(struct mbufpool_worker *worker);

/**
 * Says how many changes of the pool's stack are left, by one read; other workers may take some meanwhile.
 *
 * An act that the worker's cache can't serve takes one or more. Once none is left what has to get from
 * the stack is refused by MBUFPOOL_HEAD_SPENT, while what the cache has still serves, and what is put back
 * stays in caches. A program that is to go on closes the pool before, and opens another.
 *
 * @param worker
 *   Any worker of the pool.
 * @return
 *   0 to 2^40 - 1; 0 also where the handle has no worker.
 */
uint64_t mbufpool_worker_changes_left(struct mbufpool_worker *worker);

/* ---- the end of a pool of packets ---- */

/** What a pool left at its end, its statement or what is lost of it, or none where the pointer is null.
 * The pointer is the library's. */
struct mbufpool_statement { void *at; };

/**
 * Closes a pool of packets, and leaves what it found.
 *
 * Where every worker of the pool is there, and each parcel was received, that says where each element is:
 * what the workers still have is settled, so nothing need be freed or flushed before. Where a worker was
 * ended before, or a parcel is lost or under way still, it has the list of the elements that are lost with
 * them and nothing more (mbufpool_statement_lost).
 *
 * @param workers
 *   The handles of its workers, in any order; they have zeros then. A handle with zeros is passed over:
 *   its worker was ended before, and what that had is lost.
 * @param n
 *   How many handles.
 * @param out
 *   Gets what the pool left. One that was there is freed; where the call is refused, it stays.
 * @return
 *   - 0: the pool is closed.
 *   Each handle keeps its worker where the answer is one of
 *   - MBUFPOOL_STRANGER: `workers` or `out` is NULL, no handle has a worker, or one has a worker of
 *     another pool than the first's.
 *   - MBUFPOOL_IN_USE: a worker of the pool is in another handle.
 *   - MBUFPOOL_NO_MEMORY: there is no memory for what a closing takes.
 *   The pool is ended, each handle has zeros and nothing is told where it is one of
 *   - MBUFPOOL_MISUSED: another thread used one of these workers meanwhile.
 *   - MBUFPOOL_NO_MEMORY: memory was refused while the pool was settled.
 */
uint32_t mbufpool_worker_close(struct mbufpool_worker *workers, size_t n,
	struct mbufpool_statement *out);

/** How many elements the pool had, and how many were available and in use. */
struct mbufpool_counts { uint64_t population, available, in_use; };

/**
 * Says how many elements were where.
 *
 * @param statement
 *   What the pool left.
 * @param out
 *   Gets the counts.
 * @return
 *   - 0: they are said.
 *   - MBUFPOOL_STRANGER: the handle has nothing, or lost elements alone.
 */
uint32_t mbufpool_statement_counts(struct mbufpool_statement *statement, struct mbufpool_counts *out);

/**
 * Writes the statement, line by line as text.
 *
 * @param statement
 *   What the pool left.
 * @param buf
 *   Gets the first len bytes of it, or all where it is shorter, and no zero byte behind them.
 * @param len
 *   How many bytes there is room for; 0 to ask how long it is.
 * @return
 *   How many bytes all of it has; 0 where the handle has nothing or lost elements alone, or memory was
 *   refused.
 */
size_t mbufpool_statement_text(struct mbufpool_statement *statement, char *buf, size_t len);

/**
 * Writes the statement as one line of JSON, with its newline.
 *
 * @param statement,buf,len
 *   As mbufpool_statement_text has them.
 * @return
 *   What mbufpool_statement_text answers.
 */
size_t mbufpool_statement_json(struct mbufpool_statement *statement, char *buf, size_t len);

/**
 * Writes which elements are lost, ascending.
 *
 * @param statement
 *   What the pool left.
 * @param out
 *   Gets the first n of their numbers, or all where they are fewer.
 * @param n
 *   How many there is room for, as of a statement.
 * @return
 *   How many there are; 0 where none is lost, and where the handle has nothing.
 */
size_t mbufpool_statement_lost(struct mbufpool_statement *statement, uint32_t *out, size_t n);

/**
 * Ends a statement, and frees what a pool left.
 *
 * @param statement
 *   What the pool left; the handle has zeros then.
 */
void mbufpool_statement_end(struct mbufpool_statement *statement);

/* NULL for a handle: of each call the test and the macro that makes it. The functions above, which the
 * library exports, are owed a handle. */

static inline uint32_t mbufpool_nullable_pool_open(uint64_t values, uint32_t workers,
	uint32_t tries, struct mbufpool_pool *out)
{
	if (out == NULL)
		return MBUFPOOL_STRANGER;
	return mbufpool_pool_open(values, workers, tries, out);
}

static inline uint32_t mbufpool_nullable_pool_split(struct mbufpool_pool *pool,
	struct mbufpool_pool *out)
{
	if (pool == NULL || out == NULL)
		return MBUFPOOL_STRANGER;
	return mbufpool_pool_split(pool, out);
}

static inline uint32_t mbufpool_nullable_pool_get(struct mbufpool_pool *pool, uint64_t *out,
	size_t n)
{
	if (pool == NULL)
		return MBUFPOOL_STRANGER;
	return mbufpool_pool_get(pool, out, n);
}

static inline uint32_t mbufpool_nullable_pool_get_one(struct mbufpool_pool *pool, uint64_t *out)
{
	if (pool == NULL)
		return MBUFPOOL_STRANGER;
	return mbufpool_pool_get_one(pool, out);
}

static inline uint32_t mbufpool_nullable_pool_put(struct mbufpool_pool *pool, const uint64_t *list,
	size_t n)
{
	if (pool == NULL)
		return MBUFPOOL_STRANGER;
	return mbufpool_pool_put(pool, list, n);
}

static inline uint32_t mbufpool_nullable_pool_put_one(struct mbufpool_pool *pool, uint64_t value)
{
	if (pool == NULL)
		return MBUFPOOL_STRANGER;
	return mbufpool_pool_put_one(pool, value);
}

static inline uint32_t mbufpool_nullable_pool_flush(struct mbufpool_pool *pool)
{
	if (pool == NULL)
		return MBUFPOOL_STRANGER;
	return mbufpool_pool_flush(pool);
}

static inline uint32_t mbufpool_nullable_pool_count(struct mbufpool_pool *pool, uint64_t *out)
{
	if (pool == NULL)
		return MBUFPOOL_STRANGER;
	return mbufpool_pool_count(pool, out);
}

static inline uint32_t mbufpool_nullable_pool_front(struct mbufpool_pool *pool, void **front,
	uint64_t *number, uint64_t *count)
{
	if (pool == NULL)
		return MBUFPOOL_STRANGER;
	return mbufpool_pool_front(pool, front, number, count);
}

static inline void mbufpool_nullable_pool_end(struct mbufpool_pool *pool)
{
	if (pool != NULL)
		mbufpool_pool_end(pool);
}

static inline uint32_t mbufpool_nullable_guard_open(uint32_t population, uint32_t cache,
	uint32_t waiting, uint32_t workers, uint32_t tries, struct mbufpool_guard *out)
{
	if (out == NULL)
		return MBUFPOOL_STRANGER;
	return mbufpool_guard_open(population, cache, waiting, workers, tries, out);
}

static inline uint32_t mbufpool_nullable_guard_split(struct mbufpool_guard *worker,
	struct mbufpool_guard *out)
{
	if (worker == NULL || out == NULL)
		return MBUFPOOL_STRANGER;
	return mbufpool_guard_split(worker, out);
}

static inline uint32_t mbufpool_nullable_guard_get(struct mbufpool_guard *worker, uint32_t *out,
	size_t n)
{
	if (worker == NULL)
		return MBUFPOOL_STRANGER;
	return mbufpool_guard_get(worker, out, n);
}

static inline uint32_t mbufpool_nullable_guard_get_one(struct mbufpool_guard *worker, uint32_t *out)
{
	if (worker == NULL)
		return MBUFPOOL_STRANGER;
	return mbufpool_guard_get_one(worker, out);
}

static inline uint32_t mbufpool_nullable_guard_put(struct mbufpool_guard *worker,
	const uint32_t *list, size_t n, uint64_t *taken)
{
	if (worker == NULL) {
		*taken = 0;
		return MBUFPOOL_STRANGER;
	}
	return mbufpool_guard_put(worker, list, n, taken);
}

static inline uint32_t mbufpool_nullable_guard_put_one(struct mbufpool_guard *worker,
	uint32_t element)
{
	if (worker == NULL)
		return MBUFPOOL_STRANGER;
	return mbufpool_guard_put_one(worker, element);
}

static inline uint32_t mbufpool_nullable_guard_flush(struct mbufpool_guard *worker)
{
	if (worker == NULL)
		return MBUFPOOL_STRANGER;
	return mbufpool_guard_flush(worker);
}

static inline uint32_t mbufpool_nullable_guard_count(struct mbufpool_guard *worker, uint64_t *out)
{
	if (worker == NULL)
		return MBUFPOOL_STRANGER;
	return mbufpool_guard_count(worker, out);
}

static inline uint32_t mbufpool_nullable_guard_stale(struct mbufpool_guard *worker, uint32_t *out)
{
	if (worker == NULL)
		return MBUFPOOL_STRANGER;
	return mbufpool_guard_stale(worker, out);
}

static inline void mbufpool_nullable_guard_end(struct mbufpool_guard *worker)
{
	if (worker != NULL)
		mbufpool_guard_end(worker);
}

static inline uint32_t mbufpool_nullable_worker_open(const struct mbufpool_limits *limits,
	struct mbufpool_worker *out, size_t n)
{
	if (out == NULL && n != 0)
		return MBUFPOOL_STRANGER;
	return mbufpool_worker_open(limits, out, n);
}

static inline void mbufpool_nullable_worker_end(struct mbufpool_worker *worker)
{
	if (worker != NULL)
		mbufpool_worker_end(worker);
}

static inline uint32_t mbufpool_nullable_worker_alloc(struct mbufpool_worker *worker,
	struct mbufpool_packet *out)
{
	if (worker == NULL)
		return MBUFPOOL_STRANGER;
	return mbufpool_worker_alloc(worker, out);
}

static inline uint32_t mbufpool_nullable_worker_alloc_bulk(struct mbufpool_worker *worker,
	struct mbufpool_packet *out, size_t n)
{
	if (worker == NULL)
		return MBUFPOOL_STRANGER;
	return mbufpool_worker_alloc_bulk(worker, out, n);
}

static inline uint32_t mbufpool_nullable_worker_free(struct mbufpool_worker *worker, uint32_t slot)
{
	if (worker == NULL)
		return MBUFPOOL_STRANGER;
	return mbufpool_worker_free(worker, slot);
}

static inline uint32_t mbufpool_nullable_worker_append(struct mbufpool_worker *worker,
	uint32_t slot, uint16_t len, uint32_t *pkt_len)
{
	if (worker == NULL)
		return MBUFPOOL_STRANGER;
	return mbufpool_worker_append(worker, slot, len, pkt_len);
}

static inline uint32_t mbufpool_nullable_worker_prepend(struct mbufpool_worker *worker,
	uint32_t slot, uint16_t len, uint32_t *pkt_len)
{
	if (worker == NULL)
		return MBUFPOOL_STRANGER;
	return mbufpool_worker_prepend(worker, slot, len, pkt_len);
}

static inline uint32_t mbufpool_nullable_worker_adj(struct mbufpool_worker *worker, uint32_t slot,
	uint16_t len, uint32_t *pkt_len)
{
	if (worker == NULL)
		return MBUFPOOL_STRANGER;
	return mbufpool_worker_adj(worker, slot, len, pkt_len);
}

static inline uint32_t mbufpool_nullable_worker_trim(struct mbufpool_worker *worker, uint32_t slot,
	uint16_t len, uint32_t *pkt_len)
{
	if (worker == NULL)
		return MBUFPOOL_STRANGER;
	return mbufpool_worker_trim(worker, slot, len, pkt_len);
}

static inline uint32_t mbufpool_nullable_worker_chain(struct mbufpool_worker *worker, uint32_t head,
	uint32_t tail)
{
	if (worker == NULL)
		return MBUFPOOL_STRANGER;
	return mbufpool_worker_chain(worker, head, tail);
}

static inline uint32_t mbufpool_nullable_worker_attach(struct mbufpool_worker *worker,
	uint32_t slot, uint32_t target)
{
	if (worker == NULL)
		return MBUFPOOL_STRANGER;
	return mbufpool_worker_attach(worker, slot, target);
}

static inline uint32_t mbufpool_nullable_worker_detach(struct mbufpool_worker *worker,
	uint32_t slot)
{
	if (worker == NULL)
		return MBUFPOOL_STRANGER;
	return mbufpool_worker_detach(worker, slot);
}

static inline uint32_t mbufpool_nullable_worker_clone(struct mbufpool_worker *worker, uint32_t slot,
	struct mbufpool_packet *out)
{
	if (worker == NULL)
		return MBUFPOOL_STRANGER;
	return mbufpool_worker_clone(worker, slot, out);
}

static inline uint32_t mbufpool_nullable_worker_offer(struct mbufpool_worker *worker, uint32_t slot,
	uint32_t desk)
{
	if (worker == NULL)
		return MBUFPOOL_STRANGER;
	return mbufpool_worker_offer(worker, slot, desk);
}

static inline uint32_t mbufpool_nullable_worker_take(struct mbufpool_worker *worker, uint32_t desk,
	uint32_t *slot)
{
	if (worker == NULL)
		return MBUFPOOL_STRANGER;
	return mbufpool_worker_take(worker, desk, slot);
}

static inline uint32_t mbufpool_nullable_worker_send_segments(struct mbufpool_worker *worker,
	uint32_t slot, struct mbufpool_parcel *out, struct mbufpool_parcel_segment *segments,
	size_t room)
{
	if (worker == NULL)
		return MBUFPOOL_STRANGER;
	return mbufpool_worker_send_segments(worker, slot, out, segments, room);
}

static inline uint32_t mbufpool_nullable_worker_receive_segments(struct mbufpool_worker *worker,
	struct mbufpool_parcel *parcel, const struct mbufpool_parcel_segment *segments, size_t n,
	uint32_t *slot)
{
	if (worker == NULL)
		return MBUFPOOL_STRANGER;
#if defined(__x86_64__) && defined(__GNUC__)
	/* Its cache line comes from the lcore that wrote it, and is written here: one way, not two. */
	__asm__ volatile("prefetchw %0" : : "m"(*parcel));
#endif
	return mbufpool_worker_receive_segments(worker, parcel, segments, n, slot);
}

static inline uint32_t mbufpool_nullable_worker_refcnt(struct mbufpool_worker *worker,
	uint32_t slot, uint32_t *references)
{
	if (worker == NULL)
		return MBUFPOOL_STRANGER;
	return mbufpool_worker_refcnt(worker, slot, references);
}

static inline uint32_t mbufpool_nullable_worker_pkt_len(struct mbufpool_worker *worker,
	uint32_t slot, uint32_t *pkt_len)
{
	if (worker == NULL)
		return MBUFPOOL_STRANGER;
	return mbufpool_worker_pkt_len(worker, slot, pkt_len);
}

static inline uint32_t mbufpool_nullable_worker_nb_segs(struct mbufpool_worker *worker,
	uint32_t slot, uint32_t *segments)
{
	if (worker == NULL)
		return MBUFPOOL_STRANGER;
	return mbufpool_worker_nb_segs(worker, slot, segments);
}

static inline uint32_t mbufpool_nullable_worker_segment(struct mbufpool_worker *worker,
	uint32_t slot, uint32_t index, struct mbufpool_segment *out)
{
	if (worker == NULL)
		return MBUFPOOL_STRANGER;
	return mbufpool_worker_segment(worker, slot, index, out);
}

static inline uint32_t mbufpool_nullable_worker_flush(struct mbufpool_worker *worker)
{
	if (worker == NULL)
		return MBUFPOOL_STRANGER;
	return mbufpool_worker_flush(worker);
}

static inline uint64_t mbufpool_nullable_worker_changes_left(struct mbufpool_worker *worker)
{
	if (worker == NULL)
		return 0;
	return mbufpool_worker_changes_left(worker);
}

static inline uint32_t mbufpool_nullable_worker_close(struct mbufpool_worker *workers, size_t n,
	struct mbufpool_statement *out)
{
	if ((workers == NULL && n != 0) || out == NULL)
		return MBUFPOOL_STRANGER;
	return mbufpool_worker_close(workers, n, out);
}

static inline uint32_t mbufpool_nullable_statement_counts(struct mbufpool_statement *statement,
	struct mbufpool_counts *out)
{
	if (statement == NULL)
		return MBUFPOOL_STRANGER;
	return mbufpool_statement_counts(statement, out);
}

static inline size_t mbufpool_nullable_statement_text(struct mbufpool_statement *statement,
	char *buf, size_t len)
{
	if (statement == NULL)
		return 0;
	return mbufpool_statement_text(statement, buf, len);
}

static inline size_t mbufpool_nullable_statement_json(struct mbufpool_statement *statement,
	char *buf, size_t len)
{
	if (statement == NULL)
		return 0;
	return mbufpool_statement_json(statement, buf, len);
}

static inline size_t mbufpool_nullable_statement_lost(struct mbufpool_statement *statement,
	uint32_t *out, size_t n)
{
	if (statement == NULL)
		return 0;
	return mbufpool_statement_lost(statement, out, n);
}

static inline void mbufpool_nullable_statement_end(struct mbufpool_statement *statement)
{
	if (statement != NULL)
		mbufpool_statement_end(statement);
}

#define mbufpool_pool_open(...) mbufpool_nullable_pool_open(__VA_ARGS__)
#define mbufpool_pool_split(...) mbufpool_nullable_pool_split(__VA_ARGS__)
#define mbufpool_pool_get(...) mbufpool_nullable_pool_get(__VA_ARGS__)
#define mbufpool_pool_get_one(...) mbufpool_nullable_pool_get_one(__VA_ARGS__)
#define mbufpool_pool_put(...) mbufpool_nullable_pool_put(__VA_ARGS__)
#define mbufpool_pool_put_one(...) mbufpool_nullable_pool_put_one(__VA_ARGS__)
#define mbufpool_pool_flush(...) mbufpool_nullable_pool_flush(__VA_ARGS__)
#define mbufpool_pool_count(...) mbufpool_nullable_pool_count(__VA_ARGS__)
#define mbufpool_pool_front(...) mbufpool_nullable_pool_front(__VA_ARGS__)
#define mbufpool_pool_end(...) mbufpool_nullable_pool_end(__VA_ARGS__)
#define mbufpool_guard_open(...) mbufpool_nullable_guard_open(__VA_ARGS__)
#define mbufpool_guard_split(...) mbufpool_nullable_guard_split(__VA_ARGS__)
#define mbufpool_guard_get(...) mbufpool_nullable_guard_get(__VA_ARGS__)
#define mbufpool_guard_get_one(...) mbufpool_nullable_guard_get_one(__VA_ARGS__)
#define mbufpool_guard_put(...) mbufpool_nullable_guard_put(__VA_ARGS__)
#define mbufpool_guard_put_one(...) mbufpool_nullable_guard_put_one(__VA_ARGS__)
#define mbufpool_guard_flush(...) mbufpool_nullable_guard_flush(__VA_ARGS__)
#define mbufpool_guard_count(...) mbufpool_nullable_guard_count(__VA_ARGS__)
#define mbufpool_guard_stale(...) mbufpool_nullable_guard_stale(__VA_ARGS__)
#define mbufpool_guard_end(...) mbufpool_nullable_guard_end(__VA_ARGS__)
#define mbufpool_worker_open(...) mbufpool_nullable_worker_open(__VA_ARGS__)
#define mbufpool_worker_end(...) mbufpool_nullable_worker_end(__VA_ARGS__)
#define mbufpool_worker_alloc(...) mbufpool_nullable_worker_alloc(__VA_ARGS__)
#define mbufpool_worker_alloc_bulk(...) mbufpool_nullable_worker_alloc_bulk(__VA_ARGS__)
#define mbufpool_worker_free(...) mbufpool_nullable_worker_free(__VA_ARGS__)
#define mbufpool_worker_append(...) mbufpool_nullable_worker_append(__VA_ARGS__)
#define mbufpool_worker_prepend(...) mbufpool_nullable_worker_prepend(__VA_ARGS__)
#define mbufpool_worker_adj(...) mbufpool_nullable_worker_adj(__VA_ARGS__)
#define mbufpool_worker_trim(...) mbufpool_nullable_worker_trim(__VA_ARGS__)
#define mbufpool_worker_chain(...) mbufpool_nullable_worker_chain(__VA_ARGS__)
#define mbufpool_worker_attach(...) mbufpool_nullable_worker_attach(__VA_ARGS__)
#define mbufpool_worker_detach(...) mbufpool_nullable_worker_detach(__VA_ARGS__)
#define mbufpool_worker_clone(...) mbufpool_nullable_worker_clone(__VA_ARGS__)
#define mbufpool_worker_offer(...) mbufpool_nullable_worker_offer(__VA_ARGS__)
#define mbufpool_worker_take(...) mbufpool_nullable_worker_take(__VA_ARGS__)
#define mbufpool_worker_send_segments(...) mbufpool_nullable_worker_send_segments(__VA_ARGS__)
#define mbufpool_worker_receive_segments(...) mbufpool_nullable_worker_receive_segments(__VA_ARGS__)
#define mbufpool_worker_refcnt(...) mbufpool_nullable_worker_refcnt(__VA_ARGS__)
#define mbufpool_worker_pkt_len(...) mbufpool_nullable_worker_pkt_len(__VA_ARGS__)
#define mbufpool_worker_nb_segs(...) mbufpool_nullable_worker_nb_segs(__VA_ARGS__)
#define mbufpool_worker_segment(...) mbufpool_nullable_worker_segment(__VA_ARGS__)
#define mbufpool_worker_flush(...) mbufpool_nullable_worker_flush(__VA_ARGS__)
#define mbufpool_worker_changes_left(...) mbufpool_nullable_worker_changes_left(__VA_ARGS__)
#define mbufpool_worker_close(...) mbufpool_nullable_worker_close(__VA_ARGS__)
#define mbufpool_statement_counts(...) mbufpool_nullable_statement_counts(__VA_ARGS__)
#define mbufpool_statement_text(...) mbufpool_nullable_statement_text(__VA_ARGS__)
#define mbufpool_statement_json(...) mbufpool_nullable_statement_json(__VA_ARGS__)
#define mbufpool_statement_lost(...) mbufpool_nullable_statement_lost(__VA_ARGS__)
#define mbufpool_statement_end(...) mbufpool_nullable_statement_end(__VA_ARGS__)

#ifdef __cplusplus
}
#endif
#endif
