# What is installed: the program, the library, DPDK's plugins, and their manual.
#
#   make                              builds it all below build/
#   make install PREFIX=/usr/local    copies it below $(DESTDIR)$(PREFIX), and the plugins to where
#                                     DPDK looks for them; below another PREFIX than /usr and
#                                     /usr/local the plugins go there, too
#   make uninstall PREFIX=/usr/local  removes what was installed there
#   make dist                         build/mbufpool-VERSION-x86_64-linux.tar.xz, with all of it, for
#                                     machines without the Rattle kit
#   make clean
#
# Library and program are proved and built before: `rt lib` in crates/mbufpool_c, `./mbufpool prove`.
# Beside a C compiler and its binutils it takes Python 3, which writes the manual (package/manual).
# LIB=FILE is another library, PROGRAM=FILE another program, and KIT=FOLDER another kit than that of
# the rt on the PATH. WITH_DPDK=no leaves out what is for DPDK. BINDIR, LIBDIR, INCLUDEDIR, MANDIR and
# DPDK_DRIVERS are folders that `make install` copies to (package/place).

top := $(patsubst %/,%,$(dir $(abspath $(lastword $(MAKEFILE_LIST)))))
headers := include/mbufpool.h
version_of = $(shell sed -n 's/^.define MBUFPOOL_VERSION$(1) "*\([0-9.]*\)"*$$/\1/p' include/mbufpool.h)
VERSION := $(call version_of,)
major := $(call version_of,_MAJOR)

LIB ?= crates/mbufpool_c/out/libmbufpool_c.a
PROGRAM ?= crates/mbufpool/out/mbufpool
KIT ?= $(patsubst %/bin/rt,%,$(realpath $(shell command -v rt)))
HEAP ?= $(KIT)/c/liblibc_c.a
OBJCOPY ?= objcopy
CFLAGS ?= -O2 -g

# The commit, its time, and the kit that proves it.
commit := $(shell git describe --always --abbrev=40 --exclude='*' --dirty=', changed' 2>/dev/null)
seconds := $(shell git log -1 --format=%ct 2>/dev/null || stat -c %Y include/mbufpool.h)
date := $(shell date -u -d @$(seconds) +%F)
kit = $(shell $(KIT)/bin/rt version 2>/dev/null)

# Where EAL looks for plugins is in the configuration that DPDK was built with.
WITH_DPDK ?= $(shell pkg-config --exists libdpdk 2>/dev/null && echo yes || echo no)
ifeq ($(WITH_DPDK),yes)
drivers := $(shell echo RTE_EAL_PMD_PATH | $(CC) -E -P -include rte_build_config.h \
	$(shell pkg-config --cflags libdpdk) - | tail -n 1 | tr -d '"')
ifneq ($(filter /usr /usr/local,$(or $(PREFIX:%/=%),/usr/local))$(filter $(PREFIX:%/=%)/%,$(drivers)),)
DPDK_DRIVERS ?= $(drivers)
endif
plugins := dpdk/librte_mempool_mbufpool.so dpdk/librte_mempool_mbufpool_guard.so dpdk/librte_mempool_mbufpool_watch.so
dump := dpdk/libmbufpool_dump.so
dump_header := dpdk/dump.h=mbufpool_dump.h
tools := dpdk/mbufpool-dump dpdk/mbufpool-core
layout := dpdk/mbufpool_layout.txt
endif

name := mbufpool-$(VERSION)-x86_64-linux
stage := build/$(name)

.PHONY: all install uninstall dist clean always
.DELETE_ON_ERROR:

all: build/staged-$(WITH_DPDK)

# (of which files it is built, and the date in the manual: written where that changes)
build/of: always
	@mkdir -p build
	@echo '$(LIB) $(HEAP) $(PROGRAM) $(date)' >$@.new
	@cmp -s $@.new $@ || cp $@.new $@

# ---- the library ----

# One object, with what it needs of the kit. What the header declares is global in it, and nothing else.
build/names: $(headers) Makefile
	@mkdir -p build
	sed -n '/^static/d; s/^[a-z].*[ *]\(mbufpool_[a-z_]*\)(.*/\1/p' $(headers) | sort >$@

build/mbufpool.o: build/names build/of $(LIB) $(HEAP)
	@mkdir -p build
	$(LD) -r -z noexecstack -o $@ --whole-archive $(LIB) --no-whole-archive $(HEAP)
	$(OBJCOPY) --keep-global-symbols=build/names $@

build/libmbufpool.a: build/mbufpool.o
	@rm -f $@
	$(AR) rcD $@ $<

build/map: build/names
	{ echo 'MBUFPOOL_$(major) {'; sed '1s/^/global: /; s/$$/;/' $<; echo 'local: *; };'; } >$@

build/libmbufpool.so: build/mbufpool.o build/map
	$(CC) $(CFLAGS) $(LDFLAGS) -shared -Wl,-soname,$(@F).$(major) -Wl,--version-script=build/map \
		-Wl,-Bsymbolic-functions -Wl,-z,defs -o $@ $< -pthread

$(LIB):
	@echo "$@ isn't there: run 'rt lib' in crates/mbufpool_c, or give LIB=FILE" >&2; exit 1

$(PROGRAM):
	@echo "$@ isn't there: run './mbufpool prove', or give PROGRAM=FILE" >&2; exit 1

$(HEAP):
	@echo "the kit's c/liblibc_c.a isn't there: put the kit's bin on the PATH, or give KIT=FOLDER" >&2
	@exit 1

# ---- for DPDK ----

made_there := $(plugins) $(dump) $(filter dpdk/mbufpool-dump,$(tools)) $(layout)

$(made_there) &: $(wildcard dpdk/*.[ch] dpdk/Makefile dpdk/*.mk) $(headers) $(LIB)
	@$(MAKE) -s -C dpdk LIB=$(abspath $(LIB)) KIT=$(KIT) HEAP=$(abspath $(HEAP)) $(notdir $(made_there))

# ---- all of it, in one folder ----

# (a shared object has the name of its version, and links by its soname and by none)
shared = install -m 755 $(1) $(stage)/lib/$(notdir $(1)).$(VERSION) && \
	ln -s $(notdir $(1)).$(VERSION) $(stage)/lib/$(notdir $(1)).$(major) && \
	ln -s $(notdir $(1)).$(major) $(stage)/lib/$(notdir $(1))

build/staged-$(WITH_DPDK): build/libmbufpool.a build/libmbufpool.so build/of $(PROGRAM) $(plugins) \
		$(dump) $(tools) $(layout) $(wildcard dpdk/mbufpool*.py dpdk/*.1) $(headers) Makefile \
		$(wildcard package/*) docs/FORMATS.md docs/FAULTS.md
	@rm -rf $(stage) build/staged-*
	@mkdir -p $(stage)/bin $(stage)/include $(stage)/lib/pkgconfig
	@install -m 755 $(PROGRAM) $(stage)/bin/mbufpool
	@install -m 644 $(headers) $(stage)/include
	@install -m 644 build/libmbufpool.a $(stage)/lib
	@$(call shared,build/libmbufpool.so)
	@sed 's|@VERSION@|$(VERSION)|' package/mbufpool.pc.in >$(stage)/lib/pkgconfig/mbufpool.pc
	@package/manual $(VERSION) $(date) $(stage)/share/man $(headers) $(dump_header)
	@install -m 755 package/place $(stage)/install
ifeq ($(WITH_DPDK),yes)
	@install -d $(stage)/lib/dpdk/$(notdir $(drivers))
	@install -m 755 $(plugins) $(stage)/lib/dpdk/$(notdir $(drivers))
	@$(call shared,$(dump))
	@install -m 644 dpdk/dump.h $(stage)/include/mbufpool_dump.h
	@install -m 755 $(tools) $(stage)/bin
	@install -d $(stage)/share/mbufpool
	@install -m 644 dpdk/mbufpool_*.py $(layout) $(stage)/share/mbufpool
	@for it in $(notdir $(tools)); do \
		sed "s|^\.TH \([^ ]*\) 1.*|.TH \1 1 $(date) \"mbufpool $(VERSION)\"|" dpdk/$$it.1 \
			>$(stage)/share/man/man1/$$it.1; \
	done
else
	@echo "the plugins and the dumps were left out: DPDK's development files (Debian: dpdk-dev," \
		"libdpdk-dev) aren't installed, or WITH_DPDK isn't yes"
endif
	@touch $@
	@echo "$(stage): $$(find $(stage) ! -type d | wc -l) files"

told := PREFIX DESTDIR BINDIR LIBDIR INCLUDEDIR MANDIR DPDK_DRIVERS
place = $(foreach it,$(told),$(if $(filter-out undefined,$(origin $(it))),'$(it)=$($(it))'))

install: build/staged-$(WITH_DPDK)
	@$(stage)/install $(place)

uninstall:
	@package/place uninstall $(place)

# ---- for machines without the kit ----

# The newest symbol of the C library that is asked for, and what stands in the folder for DPDK.
glibc = $(shell objdump -T $(stage)/bin/mbufpool* $(stage)/lib/*.so $(stage)/lib/dpdk/*/*.so \
	2>/dev/null | sed -n 's/.*GLIBC_\([0-9.]*\).*/\1/p' | sort -uV | tail -n 1)
for_dpdk = $(if $(plugins),The plugins are built for DPDK $(shell pkg-config --modversion libdpdk).,What \
	is for DPDK was left out.)

dist: build/staged-$(WITH_DPDK)
	@test -n "$(commit)" || { echo "there is no commit to name: 'make dist' wants git" >&2; exit 1; }
	@test -n "$(kit)" || { echo "there is no kit to name: put its bin on the PATH" >&2; exit 1; }
	@sed -e 's|@VERSION@|$(VERSION)|; s|@COMMIT@|$(commit)|; s|@DATE@|$(date)|; s|@KIT@|$(kit)|' \
		-e 's|@GLIBC@|$(glibc)|; s|@DPDK@|$(for_dpdk)|' package/README.in >$(stage)/README
	@tar -C build --sort=name --owner=0 --group=0 --numeric-owner --mtime=@$(seconds) \
		--mode=u=rwX,go=rX --format=ustar -cf - $(name) | xz -9e -T1 >build/$(name).tar.xz
	@echo "build/$(name).tar.xz: $$(stat -c %s build/$(name).tar.xz) bytes, sha256" \
		"$$(sha256sum <build/$(name).tar.xz | cut -d ' ' -f 1)"

clean:
	rm -rf build
