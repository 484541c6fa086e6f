/* mempool_guard.h - what is out of a mempool on the handler "mbufpool_guard", by who got it.
 *
 * A program that is linked with the handler's files calls these; one that loads the plugin by EAL's
 * -d finds them in it:
 *
 *     void *plugin = dlopen("librte_mempool_mbufpool_guard.so", RTLD_NOW | RTLD_NOLOAD);
 *     report = (int (*)(FILE *, const struct rte_mempool *))dlsym(plugin, "mbufpool_guard_report");
 *
 * A debugger calls them by name, and the telemetry command /mbufpool/out,POOL tells the same. */
#ifndef MEMPOOL_GUARD_H
#define MEMPOOL_GUARD_H
#include <stdio.h>

#include <rte_mempool.h>

#ifdef __cplusplus
extern "C" {
#endif

#define MBUFPOOL_GUARD_OPS "mbufpool_guard"
#define MBUFPOOL_GUARD_EXPORT __attribute__((visibility("default")))

/* Writes how many objects are out, and how many of them by each place in the code and lcore, most
 * first:
 *
 *     mbufpool_guard: pool mb0: 52 of 8191 objects are out, 0 puts were refused
 *          37  lcore 1  app+0x1100
 *          15  lcore 2  app+0x1180
 *
 * Each object is looked at once, while others may get and put: what is out all the time is counted.
 * Where puts were found late to have been too many, the first line ends in ", 3 were found late".
 * It may be called by any thread, and takes 4 bytes of memory for each object and 8 for each place while it
 * runs. Answers 0, or
 *   -EINVAL  the mempool isn't on this handler, or has no objects yet, or this isn't the primary process
 *   -ENOMEM  there is no memory for it, which is written as one line
 *   -EIO     it can't be written */
MBUFPOOL_GUARD_EXPORT int mbufpool_guard_report(FILE *out, const struct rte_mempool *mp);

/* Writes a line for each object that is out, `most` at most, in the order of their numbers: its number,
 * its address, and who got it:
 *
 *     element 29  0x103fcc040  lcore 1  app+0x1100
 *
 * Answers as mbufpool_guard_report does. */
MBUFPOOL_GUARD_EXPORT int mbufpool_guard_list(
	FILE *out, const struct rte_mempool *mp, unsigned int most);

/* Lists the objects that aren't out, by number, and answers how many there are: the first `n` of them
 * are written. So a dump (dump.h) sees them without a get. Answers -EINVAL as mbufpool_guard_report
 * does. */
MBUFPOOL_GUARD_EXPORT int mbufpool_guard_in_pool(
	const struct rte_mempool *mp, void **objects, unsigned int n);

#ifdef __cplusplus
}
#endif
#endif
