.PHONY: help run example check test bench soak lib install uninstall clean

PREFIX ?= /usr/local
SECONDS ?= 600
ARCHIVE := target/staticlib/libgalmuvesh.a
LISTING := target/bin/listing
SOURCES := crates.txt $(shell find crates -name out -prune -o \( -name '*.rt' -o -name '*.antt' \) -print)
MAN := $(wildcard man/man1/*.1 man/man3/*.3)
INSTALLED := include/galmuvesh.h lib/libgalmuvesh.a lib/pkgconfig/galmuvesh.pc bin/galmuvesh-listing $(MAN:%=share/%)

help: ## what can be made
	@sed -n 's/^\([a-z-]*\):.*## \(.*\)/make \1\t\2/p' Makefile | expand -t 16

run: $(LISTING) ## list the sample recording of document 01's trace A
	tools/x86-run $(LISTING) <samples/trace-a.recording

example: $(ARCHIVE) ## build and run the example host, a season in C
	@mkdir -p target/examples
	tools/x86-cc -std=c99 -O2 -Wall -Wextra -pedantic -Iinclude examples/season.c $(ARCHIVE) -o target/examples/season
	tools/x86-run target/examples/season

check: ## prove every crate, over what earlier checks kept
	rt all check

test: ## the gate: prove everything, try every must-fail edit, run every test
	@bash tests/gate

bench: ## time the library beside Rust, C and the JVM; write docs/BENCHMARK.md
	@bash bench/run

soak: $(ARCHIVE) ## compare the library with the second reading from fresh seeds, for SECONDS=600
	@bash tests/compare soak $(SECONDS)

lib: $(ARCHIVE) ## the archive for C hosts on x86-64

# for every x86-64 processor: the kit's own choice is v2, which an old station has not, and an archive cannot look
$(ARCHIVE): $(SOURCES)
	@mkdir -p target
	cd crates/galmuvesh_c && rt lib --cpu x86-64 >../../target/archive.log 2>&1 || { cat ../../target/archive.log; exit 1; }
	install -D -m 644 crates/galmuvesh_c/out/libgalmuvesh_c.a $@

# a program is linked where it is first run
$(LISTING): $(SOURCES)
	@mkdir -p target
	cd crates/listing && rt run --cpu x86-64 </dev/null >../../target/listing.log 2>&1 || { cat ../../target/listing.log; exit 1; }
	install -D -m 755 crates/listing/out/listing $@

install: $(ARCHIVE) $(LISTING) ## install under PREFIX (default /usr/local), below DESTDIR where one is given
	install -d $(sort $(dir $(INSTALLED:%=$(DESTDIR)$(PREFIX)/%)))
	install -m 644 include/galmuvesh.h $(DESTDIR)$(PREFIX)/include
	install -m 644 $(ARCHIVE) $(DESTDIR)$(PREFIX)/lib
	sed -e 's|@PREFIX@|$(PREFIX)|' -e "s|@VERSION@|$$(cat VERSION)|" galmuvesh.pc.in >$(DESTDIR)$(PREFIX)/lib/pkgconfig/galmuvesh.pc
	install -m 755 $(LISTING) $(DESTDIR)$(PREFIX)/bin/galmuvesh-listing
	install -m 644 $(filter %.1,$(MAN)) $(DESTDIR)$(PREFIX)/share/man/man1
	install -m 644 $(filter %.3,$(MAN)) $(DESTDIR)$(PREFIX)/share/man/man3

uninstall: ## remove what install put there
	rm -f $(INSTALLED:%=$(DESTDIR)$(PREFIX)/%)

clean: ## remove what was made
	rm -rf target crates/*/out
