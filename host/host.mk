# The host: the safe wrapper and formboard over the proved library. The root Makefile includes this file.
# Cargo works offline, with its files in host/target.

HOST = cd host && cargo
FORMBOARD = $(HOST) run --quiet --release --offline -p formboard --
PICTURES = ../docs/pictures

SOAK = host/target/release/soak
VALGRIND = valgrind --quiet --error-exitcode=3 --exit-on-first-error=yes --redzone-size=256 $(SOAK) --most 300
# reads past a slice's ends are seen too: each slice is a heap block, and valgrind knows its ends
BARE = $(VALGRIND) --bare

.PHONY: capi-library demo host-test c-test install pictures soak soak-short soak-valgrind soak-build bench bench-short

# The proved library under its C names. BROTHSTITCH_DIR names a folder with another libcapi.a.
ifdef BROTHSTITCH_DIR
CAPI_DIR = $(BROTHSTITCH_DIR)
# what a library written in Rust wants besides; the proved one wants nothing
C_LIBS = -lpthread -ldl -lm
else
CAPI_DIR = crates/capi/out
CAPI = $(CAPI_DIR)/libcapi.a
$(CAPI): $(SOURCES)
	@echo "proving the library (a while from nothing, less after a change); the prover's own words go to build/capi.log"
	@host/prove-quietly capi
	@touch $(CAPI)
endif

capi-library: $(CAPI)

# the engine bay: its table, and its drawing in build/engine-bay.svg
demo: $(CAPI)
	@mkdir -p build
	@$(FORMBOARD) --draw ../build/engine-bay.svg boards/engine-bay.board
	@echo "drawn: build/engine-bay.svg"

# the wrapper's tests, and those of formboard: errors, tables, drawings, lessons; and the C program
host-test: $(CAPI) c-test
	$(HOST) test --release --offline

# every call once from C, compiled against the header; and the header's own quick start, against what was installed
GCC = gcc -std=c99 -Wall -Wextra -Werror -pedantic
c-test: $(CAPI)
	@mkdir -p build
	$(GCC) -Iinclude -o build/calls host/c/calls.c -L$(CAPI_DIR) -lcapi $(C_LIBS)
	build/calls
	@rm -rf build/installed
	@$(MAKE) --no-print-directory install PREFIX=$(CURDIR)/build/installed >/dev/null
	@sed -n '/Quick start/,/What a host owes/{//d; s/^ [*] \{0,5\}//p;}' include/brothstitch.h >build/quick-start.c
	$(GCC) -Ibuild/installed/include -o build/quick-start build/quick-start.c -Lbuild/installed/lib -lbrothstitch $(C_LIBS)
	test "$$(build/quick-start)" = inside

# the library as C programs link it
PREFIX = /usr/local
VERSION = $(shell sed -n 's/^.define BROTHSTITCH_VERSION "\(.*\)"/\1/p' include/brothstitch.h)
install: $(CAPI)
	mkdir -p $(DESTDIR)$(PREFIX)/lib/pkgconfig $(DESTDIR)$(PREFIX)/include
	cp $(CAPI_DIR)/libcapi.a $(DESTDIR)$(PREFIX)/lib/libbrothstitch.a
	cp include/brothstitch.h $(DESTDIR)$(PREFIX)/include/brothstitch.h
	sed -e 's|@PREFIX@|$(PREFIX)|' -e 's|@VERSION@|$(VERSION)|' host/c/brothstitch.pc.in >$(DESTDIR)$(PREFIX)/lib/pkgconfig/brothstitch.pc

soak-build: $(CAPI)
	$(HOST) build --release --offline -p soak

# bad input at length: six million calls in guarded slices, and two million under valgrind; about a quarter of an hour
soak: soak-build
	$(SOAK)
	@$(MAKE) --no-print-directory soak-valgrind

# the same in seconds, for `make test`; and a little of it under valgrind where that is installed
soak-short: soak-build
	$(SOAK) --short
	@if command -v valgrind >/dev/null; then echo "$(BARE) --calls 10000"; $(BARE) --calls 10000; \
	else echo "left out: valgrind is not installed (make soak-valgrind installs it)"; fi

# a million calls in guarded slices under valgrind, and a million in bare ones
soak-valgrind: soak-build
	@command -v valgrind >/dev/null || { apt-get update && apt-get install -y valgrind; } >/dev/null 2>&1 || \
	{ echo "left out: valgrind is not installed, and apt-get could not install it"; exit 1; }
	$(VALGRIND) --calls 1000000
	$(BARE) --calls 1000000

# the library beside the Rust; the tables of docs/PACE.md go to build/pace.md
bench: $(CAPI)
	@mkdir -p build
	$(HOST) run --release --offline -p bench -- --page ../build/pace.md

bench-short: $(CAPI)
	$(HOST) run --release --offline -p bench -- --short

# draws anew what docs/ shows; the tests compare
pictures: $(CAPI)
	@mkdir -p docs/pictures
	@$(FORMBOARD) --draw $(PICTURES)/engine-bay.svg boards/engine-bay.board >boards/engine-bay.table
	@$(FORMBOARD) --draw $(PICTURES)/lesson-border.svg boards/lesson-border.board
	@-$(FORMBOARD) --index stripes --damage fins:list:269:9999 --rays --draw $(PICTURES)/lesson-index.svg boards/lesson-index.board
	@$(FORMBOARD) --draw $(PICTURES)/lesson-tests.svg boards/lesson-tests.board
	@$(FORMBOARD) --draw $(PICTURES)/lesson-decimal.svg boards/lesson-decimal.board
