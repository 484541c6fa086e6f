# The handler "mbufpool_guard" as a plugin of its own, and programs that play its faults, and the orders of
# two puts of one object.

guard := librte_mempool_mbufpool_guard.so
of_guard := guard_apart.c guard_log.c guard_open.c guard_report.c guard_way.c call_places.c tallies.c
guard_sources := mempool_guard.c $(of_guard)
guard_headers := mempool_guard.h guard_pool.h call_places.h tallies.h guard_steps.h object_numbers.h \
	library_causes.h one_process.h registering.h releases.h $(top)/include/mbufpool.h

all: $(guard) guard_faults guard_orders

.PHONY: clean-guard
clean: clean-guard
clean-guard:
	rm -f $(guard) guard_faults guard_orders

# What the plugin defines stays its own but for what mempool_guard.h names.
$(guard): $(guard_sources) $(guard_headers) $(libraries) Makefile guard.mk
	$(CC) $(CFLAGS) $(flags) $(as_plugin) $(guard_sources) $(libraries) \
		-Wl,--exclude-libs,ALL -Wl,-soname,$(guard) -o $@ $(for_plugin)

guard_faults: tests/guard_faults.c mempool_guard.h
	$(CC) $(CFLAGS) $(flags) tests/guard_faults.c -o $@ $(dpdk)

# (with the handler in it, whose calls of the library are gated and refused)
guard_wrap := $(foreach it,get get_one put put_one,-Wl,--wrap=mbufpool_guard_$(it))
guard_orders: tests/guard_orders.c $(guard_sources) $(guard_headers) $(libraries) Makefile guard.mk
	$(CC) $(CFLAGS) $(flags) tests/guard_orders.c $(guard_sources) $(libraries) $(guard_wrap) -o $@ $(dpdk)

# Programs with the handler in them, under a sanitizer. The library isn't instrumented: tests/unseen.c.
build/%/guard_faults: tests/guard_faults.c $(guard_sources) $(guard_headers) build/%/library.o guard.mk
	$(compiler-$*) -O2 -g $(flags) tests/guard_faults.c $(guard_sources) $(@D)/library.o -o $@ $(dpdk)

build/%/guard_orders: tests/guard_orders.c $(guard_sources) $(guard_headers) build/%/library.o guard.mk
	$(compiler-$*) -O2 -g $(flags) tests/guard_orders.c $(guard_sources) $(@D)/library.o $(guard_wrap) -o $@ \
		$(dpdk)

build/%/guard_pipeline: $(pipeline) $(guard_sources) $(guard_headers) build/%/library.o guard.mk
	$(compiler-$*) -O2 -g $(flags) $(pipeline) $(guard_sources) $(@D)/library.o -o $@ $(dpdk)
