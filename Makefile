# make           builds the library, static and shared, and the program, in build/
# make install   puts them in place, with header, pkg-config file, man page and bash completion (PREFIX=/usr/local DESTDIR=)
# make uninstall takes them away again
# make test      proves every crate, tries the must-fail edits, runs the programs (rt ci), and then the outside comparisons
# make sanitize  runs the program's tests with the address and undefined-behaviour sanitizers
# make valgrind  runs the program's tests under valgrind
# make faults    lets collections meet every fault, one at a time: failing system calls and commands, signals (some minutes)
# make fuzz      calls the library, and then the server, with whatever a fuzzer thinks of, for ten minutes each (SECONDS=600)
# make demo      shows a collection that a capture interrupts
# make bench     measures serving and collecting against memcpy and against nvme-cli, and entering into a sheet against plain sums, as ratios in
#                one run (BENCH_MIB=512)
# make clean     removes build/; what rt has proved stays in crates/*/out/
version = $(shell sed -n 's/^\#define BUMBAZEEL_VERSION_$(1) //p' include/bumbazeel.h)
VERSION := $(call version,MAJOR).$(call version,MINOR).$(call version,PATCH)
# While MAJOR is 0, functions may leave with a new MINOR: a program is given no other library than one of the MINOR that it was linked with.
SONAME := libbumbazeel.so.$(call version,MAJOR)$(if $(filter 0,$(call version,MAJOR)),.$(call version,MINOR))
PREFIX ?= /usr/local
CFLAGS ?= -O2 -Wall -Wextra
INSTALL ?= install

BINDIR ?= $(PREFIX)/bin
LIBDIR ?= $(PREFIX)/lib
INCLUDEDIR ?= $(PREFIX)/include
MANDIR ?= $(PREFIX)/share/man
DOCDIR ?= $(PREFIX)/share/doc/bumbazeel
COMPLETIONDIR ?= $(PREFIX)/share/bash-completion/completions

.PHONY: all linkable install uninstall faults test sanitize valgrind fuzz demo bench clean
.DEFAULT_GOAL := all
.DELETE_ON_ERROR:

all: build/libbumbazeel.a build/libbumbazeel.so build/bumbazeel

# The library is made only of what is proved, so its proofs are among what it is made from.
PROVED := crates.txt $(wildcard $(foreach place,src/*.rt specs/*.antt proofs/*.antt proofs/*/*.antt proofs/*/*/*.antt,crates/*/$(place)))

# The kit compiles for x86-64, whatever machine proves.
COMPILED_FOR ?= x86_64

linkable:
	@case "$$($(CC) -dumpmachine)" in $(COMPILED_FOR)*) ;; *) \
		echo "the library is compiled for $(COMPILED_FOR), and $(CC) makes programs for $$($(CC) -dumpmachine): set CC and AR to a cross compiler's" >&2; exit 1;; esac

# The crate bumbazeel is the static library: its exports are the functions of the header file, over the crates of the boundary.
build/libbumbazeel.a: $(PROVED) | linkable
	@mkdir -p build
	cd crates/bumbazeel && rt lib
	cp crates/bumbazeel/out/libbumbazeel.a $@

# The version, and so the name, stands in the header file.
build/libbumbazeel.so: build/libbumbazeel.a program/exports.map include/bumbazeel.h Makefile
	$(CC) $(CFLAGS) $(LDFLAGS) -shared -Wl,-soname,$(SONAME) -Wl,--version-script=program/exports.map -Wl,-z,noexecstack -Wl,-z,defs \
		-Wl,--whole-archive build/libbumbazeel.a -Wl,--no-whole-archive -o $@

# A second build with other flags, such as the sanitizers', has its objects elsewhere.
OBJECTS ?= build/program
SOURCES := $(wildcard program/*.c)
PROGRAM_FLAGS := -std=c11 -D_DEFAULT_SOURCE -DVERSION='"$(VERSION)"' -Iinclude

$(OBJECTS)/%.o: program/%.c include/bumbazeel.h Makefile
	@mkdir -p $(@D)
	$(CC) $(CPPFLAGS) $(CFLAGS) $(PROGRAM_FLAGS) -MMD -MP -c -o $@ $<

$(OBJECTS)/bumbazeel: $(SOURCES:program/%.c=$(OBJECTS)/%.o) build/libbumbazeel.a
	$(CC) $(CFLAGS) $(LDFLAGS) -Wl,-z,noexecstack -o $@ $^ -ldl

build/bumbazeel: build/program/bumbazeel
	cp $< $@

-include $(wildcard $(OBJECTS)/*.d)

# a drive for the tests where there is none
build/shim.so: tests/shim/shim.c include/bumbazeel.h build/libbumbazeel.a
	$(CC) -std=c11 -O2 -Wall -Wextra -fPIC -shared -Iinclude -Wl,-z,noexecstack -o $@ tests/shim/shim.c build/libbumbazeel.a -ldl

install: all
	$(INSTALL) -d $(DESTDIR)$(BINDIR) $(DESTDIR)$(LIBDIR)/pkgconfig $(DESTDIR)$(INCLUDEDIR) $(DESTDIR)$(MANDIR)/man1
	$(INSTALL) -m 755 build/bumbazeel $(DESTDIR)$(BINDIR)/bumbazeel
	$(INSTALL) -m 644 build/libbumbazeel.a $(DESTDIR)$(LIBDIR)/libbumbazeel.a
	$(INSTALL) -m 755 build/libbumbazeel.so $(DESTDIR)$(LIBDIR)/libbumbazeel.so.$(VERSION)
	ln -sf libbumbazeel.so.$(VERSION) $(DESTDIR)$(LIBDIR)/$(SONAME)
	ln -sf $(SONAME) $(DESTDIR)$(LIBDIR)/libbumbazeel.so
	$(INSTALL) -m 644 include/bumbazeel.h $(DESTDIR)$(INCLUDEDIR)/bumbazeel.h
	sed -e 's|@VERSION@|$(VERSION)|' -e 's|@PREFIX@|$(PREFIX)|' -e 's|@LIBDIR@|$(LIBDIR)|' -e 's|@INCLUDEDIR@|$(INCLUDEDIR)|' \
		program/bumbazeel.pc.in >build/bumbazeel.pc
	$(INSTALL) -m 644 build/bumbazeel.pc $(DESTDIR)$(LIBDIR)/pkgconfig/bumbazeel.pc
	$(INSTALL) -m 644 program/bumbazeel.1 $(DESTDIR)$(MANDIR)/man1/bumbazeel.1
	$(INSTALL) -d $(DESTDIR)$(COMPLETIONDIR) $(DESTDIR)$(DOCDIR)
	$(INSTALL) -m 644 docs/RULES.md $(DESTDIR)$(DOCDIR)/RULES.md
	$(INSTALL) -m 644 program/completion.bash $(DESTDIR)$(COMPLETIONDIR)/bumbazeel

uninstall:
	rm -f $(DESTDIR)$(BINDIR)/bumbazeel $(DESTDIR)$(INCLUDEDIR)/bumbazeel.h $(DESTDIR)$(LIBDIR)/libbumbazeel.a \
		$(DESTDIR)$(LIBDIR)/libbumbazeel.so $(DESTDIR)$(LIBDIR)/$(SONAME) $(DESTDIR)$(LIBDIR)/libbumbazeel.so.$(VERSION) \
		$(DESTDIR)$(LIBDIR)/pkgconfig/bumbazeel.pc $(DESTDIR)$(MANDIR)/man1/bumbazeel.1 $(DESTDIR)$(COMPLETIONDIR)/bumbazeel \
		$(DESTDIR)$(DOCDIR)/RULES.md

test:
	@tests/run

# The runtime is linked into the program, as clang does by itself: a shared one would have to be loaded before the shim.
SANITIZERS := -fsanitize=address,undefined -fno-sanitize-recover=all $(if $(findstring clang,$(CC)),,-static-libasan)

sanitize: build/libbumbazeel.a
	@$(MAKE) --no-print-directory OBJECTS=build/sanitize build/sanitize/bumbazeel CFLAGS='-O1 -g -fno-omit-frame-pointer $(SANITIZERS)'
	@ASAN_OPTIONS=exitcode=99 UBSAN_OPTIONS=exitcode=99 BUMBAZEEL=build/sanitize/bumbazeel tests/outside/program
	@ASAN_OPTIONS=exitcode=99 UBSAN_OPTIONS=exitcode=99 BUMBAZEEL=build/sanitize/bumbazeel tests/outside/device
	@ASAN_OPTIONS=exitcode=99 UBSAN_OPTIONS=exitcode=99 BUMBAZEEL=build/sanitize/bumbazeel tests/outside/serve
	@ASAN_OPTIONS=exitcode=99 UBSAN_OPTIONS=exitcode=99 BUMBAZEEL=build/sanitize/bumbazeel tests/outside/sheet

valgrind: build/bumbazeel
	@BUMBAZEEL=tests/valgrind tests/outside/program
	@BUMBAZEEL=tests/valgrind tests/outside/device
	@BUMBAZEEL=tests/valgrind tests/outside/serve
	@BUMBAZEEL=tests/valgrind tests/outside/sheet

faults: build/bumbazeel build/shim.so
	@tests/outside/faults --all

# libFuzzer comes with clang. What it finds is in build/fuzz/.
SECONDS ?= 600
FUZZER_CC ?= clang

fuzz: build/fuzz/fuzz build/fuzz/pdu
	@mkdir -p build/fuzz/corpus build/fuzz/corpus-pdu
	build/fuzz/fuzz -max_total_time=$(SECONDS) -max_len=512 -print_final_stats=1 -artifact_prefix=build/fuzz/ \
		build/fuzz/corpus tests/fuzz/corpus
	build/fuzz/pdu -max_total_time=$(SECONDS) -max_len=2048 -print_final_stats=1 -artifact_prefix=build/fuzz/ \
		build/fuzz/corpus-pdu tests/fuzz/corpus-pdu

build/fuzz/fuzz: tests/fuzz/fuzz.c include/bumbazeel.h build/libbumbazeel.a
	@mkdir -p $(@D)
	$(FUZZER_CC) -std=c11 -O1 -g -Wall -Wextra -Iinclude -fsanitize=fuzzer,address,undefined -fno-sanitize-recover=all \
		-o $@ $< build/libbumbazeel.a

# the server without its sockets
PDU_SOURCES := $(addprefix program/,transport.c admin.c embedded.c header.c fault.c json.c hold.c lazy.c device.c names.c)

build/fuzz/pdu: tests/fuzz/pdu.c $(PDU_SOURCES) $(wildcard program/*.h) build/libbumbazeel.a
	@mkdir -p $(@D)
	$(FUZZER_CC) $(PROGRAM_FLAGS) -O1 -g -Wall -Wextra -fsanitize=fuzzer,address,undefined -fno-sanitize-recover=all \
		-o $@ $< $(PDU_SOURCES) build/libbumbazeel.a

demo: build/bumbazeel
	@program/demo build/bumbazeel

bench: build/bench/serving build/bench/collecting build/bench/entering build/bumbazeel build/shim.so
	@build/bench/serving
	@build/bench/collecting
	@build/bench/entering
	@bench/stock

build/bench/%: bench/%.c include/bumbazeel.h build/libbumbazeel.a
	@mkdir -p $(@D)
	$(CC) $(CFLAGS) -std=c11 -Iinclude -Wl,-z,noexecstack -o $@ $< build/libbumbazeel.a

clean:
	rm -rf build
