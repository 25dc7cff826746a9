# Rigcandle: the proved archive for C, the command over it, and what is installed or handed to a bench.
#
#   make                       the archive and the command; proves the library first, which takes some minutes once
#   make check                 the gate
#   make install PREFIX=DIR    the command, header, archive, pkg-config file and manual page; DESTDIR= goes before PREFIX
#   make dist                  target/rigcandle-VERSION-x86_64.tar.gz: the same and the documents, the command linked statically, so that
#                              a bench needs neither the prover nor a library
#   make clean                 removes what was built of the command, and leaves the proofs

# The version stands in the header alone.
VERSION := $(shell sed -n 's/^.define RIGCANDLE_VERSION "\(.*\)"/\1/p' include/rigcandle.h)
PREFIX ?= /usr/local
DESTDIR ?=

CFLAGS ?= -O2
STRICT := -std=c99 -Wall -Wextra -pedantic
# The archive is x86-64 code: elsewhere the command is compiled across, and an emulator runs it.
ifeq ($(shell uname -m),x86_64)
CC := gcc
else
CC := x86_64-linux-gnu-gcc
LDFLAGS += -static
endif
# The compiler of what runs here while building.
HOSTCC ?= cc

ARCHIVE := target/staticlib/librigcandle.a
PROGRAM := target/cli/rigcandle
LOOK := target/cli/look
BENCH := rigcandle-$(VERSION)-x86_64

# What the archive is proved from: every file of the crates that are no program, but for the edits that must fail and what rt made.
PROGRAMS := $(patsubst %/src/main.rt,%,$(wildcard crates/*/src/main.rt))
PROVED := crates.txt $(shell find $(filter-out $(PROGRAMS),$(wildcard crates/*)) -regex 'crates/[^/]*/\(must-fail\|out\)' -prune -o -type f -print)

HEADERS := include/rigcandle.h $(wildcard cli/*.h)
SOURCES := $(filter-out cli/look.c,$(wildcard cli/*.c))
OBJECTS := $(SOURCES:cli/%.c=target/cli/%.o)
LOOK_SOURCES := cli/look.c cli/arguments.c cli/commands.c cli/files.c

.PHONY: all archive program look check install dist clean
all: archive program
archive: $(ARCHIVE)
program: $(PROGRAM)
look: $(LOOK)

$(ARCHIVE): $(PROVED) | cli/prove
	@bash cli/prove
	@touch $@

target/cli/%.o: cli/%.c $(HEADERS) Makefile
	@mkdir -p $(@D)
	$(CC) $(STRICT) $(CPPFLAGS) $(CFLAGS) -Iinclude -c $< -o $@

# The archive first: what takes minutes says so at once.
$(PROGRAM): $(ARCHIVE) $(OBJECTS)
	$(CC) $(CFLAGS) $(LDFLAGS) $(OBJECTS) $(ARCHIVE) -o $@

target/cli/rigcandle-static: $(ARCHIVE) $(OBJECTS)
	$(CC) $(CFLAGS) -static $(OBJECTS) $(ARCHIVE) -o $@

$(LOOK): $(LOOK_SOURCES) $(HEADERS) Makefile
	@mkdir -p $(@D)
	$(HOSTCC) $(STRICT) $(CFLAGS) -Iinclude $(LOOK_SOURCES) -o $@

check:
	bash .ci/run

# Installs the command $(1) under the folder $(2), where it is found by the name $(3).
define install_under
	install -d '$(2)/bin' '$(2)/include' '$(2)/lib/pkgconfig' '$(2)/share/man/man1'
	install -m 755 $(1) '$(2)/bin/rigcandle'
	install -m 644 include/rigcandle.h '$(2)/include'
	install -m 644 $(ARCHIVE) '$(2)/lib'
	printf '%s\n' 'prefix=$(3)' 'libdir=$${prefix}/lib' 'includedir=$${prefix}/include' '' 'Name: rigcandle' \
	  'Description: boundary-scan interconnect test whose every verdict is proved' 'Version: $(VERSION)' \
	  'Cflags: -I$${includedir}' 'Libs: -L$${libdir} -lrigcandle' >'$(2)/lib/pkgconfig/rigcandle.pc'
	install -m 644 cli/rigcandle.1 '$(2)/share/man/man1'
endef

install: $(PROGRAM) $(ARCHIVE)
	$(call install_under,$(PROGRAM),$(DESTDIR)$(PREFIX),$(PREFIX))

dist: target/cli/rigcandle-static $(ARCHIVE)
	rm -rf 'target/$(BENCH)'
	$(call install_under,target/cli/rigcandle-static,target/$(BENCH),$${pcfiledir}/../..)
	install -d 'target/$(BENCH)/docs' 'target/$(BENCH)/examples'
	install -m 644 docs/*.md docs/*.png 'target/$(BENCH)/docs'
	install -m 644 examples/*.* 'target/$(BENCH)/examples'
	tar -czf 'target/$(BENCH).tar.gz' -C target --owner=0 --group=0 '$(BENCH)'

clean:
	rm -rf target/cli target/rigcandle-*
