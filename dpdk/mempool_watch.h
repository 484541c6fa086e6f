/* mempool_watch.h - what the handler "mbufpool_watch" has seen of a mempool, and which of its watched mbufs
 * are out.
 *
 * A program that is linked with the handler's files calls these; one that loads the plugin by EAL's -d finds
 * them in it:
 *
 *     void *plugin = dlopen("librte_mempool_mbufpool_watch.so", RTLD_NOW | RTLD_NOLOAD);
 *     report = (int (*)(FILE *, const struct rte_mempool *))dlsym(plugin, "mbufpool_watch_report");
 *
 * A debugger calls them by name, and the telemetry command /mbufpool/watch,POOL tells the same. */
#ifndef MEMPOOL_WATCH_H
#define MEMPOOL_WATCH_H
#include <stdio.h>

#include <rte_mempool.h>

#ifdef __cplusplus
extern "C" {
#endif

#define MBUFPOOL_WATCH_OPS "mbufpool_watch"
#define MBUFPOOL_WATCH_EXPORT __attribute__((visibility("default")))

/* Writes what was watched and found, and how many of the watched mbufs are out by each place in the code and
 * lcore that got them, most first:
 *
 *     mbufpool_watch: pool mb0: 1024 mbufs are watched, one in 10000, over mbufpool: 52 are out,
 *         3 of them for more than 60 s
 *     given 6104 by refills, 210 by ports, 0 as the last ones; 0 times dry; 3 packets left alone
 *     0 puts were refused, 0 mbufs were written after their free
 *          37  lcore 1  app+0x1100 (app+0x2401, app+0x273b)
 *          15  lcore 2  app+0x1180 (app+0x2401, app+0x273b)
 *
 * It may be called by any thread, at any time. Answers 0, or
 *   -EINVAL  the mempool isn't on this handler, or has no objects yet, or this isn't the primary process
 *   -ENOMEM  there is no memory for it
 *   -EIO     it can't be written */
MBUFPOOL_WATCH_EXPORT int mbufpool_watch_report(FILE *out, const struct rte_mempool *mp);

/* Writes a line for each watched mbuf that is out, `most` at most: its number, its address, for how long it
 * is out, and who got it:
 *
 *     mbuf 29  0x103fcc040  12.5 s  lcore 1  app+0x1100 (app+0x2401, app+0x273b)
 *
 * Answers as mbufpool_watch_report does. */
MBUFPOOL_WATCH_EXPORT int mbufpool_watch_list(
	FILE *out, const struct rte_mempool *mp, unsigned int most);

#ifdef __cplusplus
}
#endif
#endif
