/* registering.h - when a plugin's mempool handler is registered.
 *
 * DPDK's table has room for RTE_MEMPOOL_MAX_OPS_IDX handlers, 16, and its own drivers take most of it:
 * where all of them are installed 14 in 22.11, and 15 in 24.11 and 25.11. A plugin that EAL finds in its
 * folder of drivers, as every program does, mustn't leave one of DPDK's own without a place there,
 * ring_mp_mc say. So its handler is registered once all drivers are loaded, when the buses are scanned;
 * and one for which there is no room is logged. What -d names is registered at once, as what is linked into
 * a program is; then one of DPDK's own may lack a place, of which DPDK doesn't say which it is. */
#ifndef MBUFPOOL_REGISTERING_H
#define MBUFPOOL_REGISTERING_H

#include <dlfcn.h>
#include <stdint.h>
#include <string.h>

#include <rte_build_config.h>
#include <rte_bus_vdev.h>
#include <rte_common.h>
#include <rte_eal.h>
#include <rte_log.h>
#include <rte_mempool.h>

static inline int
is_registered(const char *name)
{
	unsigned int i;

	for (i = 0; i < rte_mempool_ops_table.num_ops; i++)
		if (strcmp(rte_mempool_ops_table.ops[i].name, name) == 0)
			return 1;
	return 0;
}

/* Logs once that a handler lacks a place. (a scan may come again) */
static inline void
log_missing(const char *name)
{
	static const char *told[RTE_MEMPOOL_MAX_OPS_IDX];
	static unsigned int nb_told;
	unsigned int i;

	for (i = 0; i < nb_told; i++)
		if (told[i] == name)
			return;
	if (nb_told < RTE_DIM(told))
		told[nb_told++] = name;
	RTE_LOG(INFO, MEMPOOL, "%s isn't there: DPDK has no room for more than %u handlers\n", name,
		RTE_MEMPOOL_MAX_OPS_IDX);
}

static inline int
is_asked_for(const char *name)
{
	const char *asked = rte_eal_mbuf_user_pool_ops();

	return asked != NULL && strcmp(asked, name) == 0;
}

/* How many places a handler leaves to others of ours that may come later. Where EAL's --mbuf-pool-ops-name asks
 * for the watch, one to that, and one to the handler that it most often wraps; else the watch, which nobody may
 * want, leaves them to the two others. */
static inline unsigned int
places_to_leave(const char *name)
{
	int is_watch = strcmp(name, "mbufpool_watch") == 0;

	if (is_asked_for(name))
		return 0;
	if (is_asked_for("mbufpool_watch"))
		return !is_registered("mbufpool_watch") +
		       (strcmp(name, "mbufpool") != 0 && !is_registered("mbufpool"));
	return is_watch ? !is_registered("mbufpool") + !is_registered("mbufpool_guard") : 0;
}

/* Registers a handler once, where there is room for it. */
static inline void
register_handler(const struct rte_mempool_ops *ops)
{
	if (is_registered(ops->name))
		return;
	if (rte_mempool_ops_table.num_ops + places_to_leave(ops->name) < RTE_MEMPOOL_MAX_OPS_IDX)
		rte_mempool_register_ops(ops);
	else if (strcmp(ops->name, "mbufpool_watch") != 0 || is_asked_for(ops->name))
		log_missing(ops->name);
}

/* Once all drivers are loaded: which of DPDK's own handlers for any machine lack a place, as ours, named by
 * -d, came before them. Of two plugins one says it: that of mbufpool. */
static inline void
log_displaced(void *own)
{
	static const char *const all[] = { "ring_mp_mc", "ring_sp_sc", "ring_mp_sc", "ring_sp_mc",
		"ring_mt_rts", "ring_mt_hts", "stack", "lf_stack", "bucket" };
	size_t i;

	if (rte_mempool_ops_table.num_ops < RTE_MEMPOOL_MAX_OPS_IDX ||
		(strcmp(own, "mbufpool") != 0 && is_registered("mbufpool")))
		return;
	for (i = 0; i < RTE_DIM(all); i++)
		if (!is_registered(all[i]))
			log_missing(all[i]);
}

/* Whether the plugin that has this code stands in a folder of drivers, by the folder's name. */
static inline int
is_among_drivers(void (*code)(void *))
{
	const char *drivers = strrchr(RTE_EAL_PMD_PATH, '/'), *name;
	size_t length = drivers == NULL ? 0 : strlen(drivers);
	Dl_info plugin;

	if (length == 0 || dladdr((void *)(uintptr_t)code, &plugin) == 0)
		return 0;
	name = strrchr(plugin.dli_fname, '/');
	return name != NULL && (size_t)(name - plugin.dli_fname) >= length &&
	       strncmp(name - length, drivers, length) == 0;
}

/* Lets this function register the plugin's handler, which has this name. */
#define REGISTERED_BY(function, name) \
	RTE_INIT(function##_when_loaded) \
	{ \
		static char own[] = name; \
\
		if (is_among_drivers(function)) { \
			rte_vdev_add_custom_scan(function, NULL); \
		} else { \
			function(NULL); \
			rte_vdev_add_custom_scan(log_displaced, own); \
		} \
	}

#endif
