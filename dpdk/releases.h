/* releases.h - in what the releases of DPDK differ that these files are built with: 22.11 to 25.11. No
 * other file asks for a release. */
#ifndef MBUFPOOL_RELEASES_H
#define MBUFPOOL_RELEASES_H
#include <rte_version.h>

#define IS_SINCE(year, month) (RTE_VERSION >= RTE_VERSION_NUM(year, month, 0, 0))

/* What a put does where a cache is full: since 22.11 it flushes the whole cache. */
#define PUT_RULE IS_SINCE(22, 11)

/* Since 23.03 telemetry's numbers are called `uint`. */
#if !IS_SINCE(23, 3)
#define rte_tel_data_add_dict_uint rte_tel_data_add_dict_u64
#endif

#endif
