/* pool_magazines.h - what a mempool on the handler "mbufpool" says of itself at the beginning of its
 * pool_data: where its free objects are, for whoever reads the memory of the process, or a core of it.
 *
 * A magazine of the library (crates/depot, src/magazine.rt) has up to 128 objects by their addresses, the
 * last on top. What is in any magazine is in the pool: in an lcore's own, or at the depot. Beside these
 * stands what the handler keeps since the library refused it, which most often is nothing. */
#ifndef MBUFPOOL_POOL_MAGAZINES_H
#define MBUFPOOL_POOL_MAGAZINES_H
#include <stdint.h>

#define MAGAZINES_MAGIC UINT64_C(0x73656e697a61676d) /* "mgazines" */
#define MOST_MAGAZINES 65534
#define MOST_ROUNDS 128

struct magazine {
	uint64_t unused[7]; /* so that no two have bytes in use in one cache line */
	uint64_t count;
	uint64_t objects[MOST_ROUNDS];
};

/* (all of them addresses of the process that made the mempool) */
struct pool_magazines {
	uint64_t magic;
	uint64_t address, count, bytes; /* the first magazine's, how many there are, and of each */
	uint64_t kept, nb_kept;		/* the list of what is kept, and how many those are */
};

#endif
