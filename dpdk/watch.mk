# The handler "mbufpool_watch" as a plugin of its own, and programs that test it.

watch := librte_mempool_mbufpool_watch.so
watch_sources := mempool_watch.c watch_mbufs.c watch_ports.c watch_log.c watch_report.c watch_tick.c call_places.c tallies.c
watch_headers := mempool_watch.h watch.h call_places.h tallies.h line_limit.h one_process.h registering.h releases.h \
	$(top)/include/mbufpool.h

watch_tests := watch_faults watch_uses watch_ports watch_cost

all: $(watch) $(watch_tests)

.PHONY: clean-watch
clean: clean-watch
clean-watch:
	rm -f $(watch) $(watch_tests)

# What the plugin defines stays its own but for what mempool_watch.h names.
$(watch): $(watch_sources) $(watch_headers) $(libraries) Makefile watch.mk
	$(CC) $(CFLAGS) $(flags) $(as_plugin) $(watch_sources) $(libraries) \
		-Wl,--exclude-libs,ALL -Wl,-soname,$(watch) -o $@ $(for_plugin)

$(watch_tests): %: tests/%.c mempool_watch.h
	$(CC) $(CFLAGS) $(flags) $< -o $@ $(dpdk)

# The same with the handler in them, under a sanitizer.
watch_objects = $(patsubst %.c,build/$*/%.o,$(watch_sources))

build/%/watch_objects: $(watch_sources) $(watch_headers) $(libraries) Makefile watch.mk
	@mkdir -p $(@D)
	for it in $(watch_sources); do \
		$(compiler-$*) -O2 -g $(flags) -c $$it -o $(@D)/$${it%.c}.o || exit; \
	done
	touch $@

build/%/watch_faults: tests/watch_faults.c build/%/watch_objects
	$(compiler-$*) -O2 -g $(flags) $< $(watch_objects) $(libraries) -o $@ $(dpdk)

build/%/watch_uses: tests/watch_uses.c build/%/watch_objects
	$(compiler-$*) -O2 -g $(flags) $< $(watch_objects) $(libraries) -o $@ $(dpdk)

build/%/watch_ports: tests/watch_ports.c build/%/watch_objects
	$(compiler-$*) -O2 -g $(flags) $< $(watch_objects) $(libraries) -o $@ $(dpdk)

.PRECIOUS: build/%/watch_objects
