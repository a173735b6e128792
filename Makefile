# make demo        shows the listing and the control program, each on a small campaign
# make check       proves one crate and those that it needs: CRATE names it, as in make check CRATE=table
# make test        proves and tests everything: the gate
# make bench       measures SHA-256, whole campaigns, form, a table that fills, arrivals, joins and the listing against a
#                  baseline in C, and a million arrivals that a full table refuses
# make memory      adds up what the core's calls take of the device's memory, and fails where it is too much; and what a
#                  controller of four campaigns takes, and a join of two tables
# make fuzz        compares the library and the listing with the harness's model for long: FUZZ_SEED, FUZZ_CASES and FUZZ_LISTINGS
#                  say where and how far
# make host        builds the listing, the library for C and the control program
# make install     puts them, the headers and the man pages below PREFIX, or below DESTDIR and PREFIX
# make uninstall   removes what was installed there
# make figures     writes into the documents how many crates, edits, tests and lines there are, and the limits of the C headers
# make clean       removes all that was built

CC = gcc
CFLAGS = -std=c11 -O2 -Wall -Wextra -Wpedantic -Werror
BENCH_CFLAGS = -std=c11 -O3 -Wall -Wextra -Wpedantic -Werror

# All that C can call. Each function has a section of its own, so a program needs to link only what it reaches.
LIBRARY = target/staticlib/libc_interface.a
ONLY_REACHED = -Wl,--gc-sections
LISTING = target/bin/listing
HEADERS = host/giangotum.h host/giangotum_core.h
HOST = target/host
HARNESS = target/harness/release/harness

# The baseline of the benchmarks: the core in C, unproved.
C_BASELINE = $(patsubst %,bench/baseline/%.c,sha256 block table admission interpretation)
C_BASELINE_HEADERS = $(wildcard bench/baseline/*.h)
CAMPAIGNS = $(patsubst %,bench/%.c,timing implementations same same_at_random chance campaigns) $(C_BASELINE) bench/baseline/retire.c
ARRIVALS = $(patsubst %,bench/%.c,timing controllers layout same_arrivals chance waiting campaigns) $(C_BASELINE) bench/baseline/shelf.c
GROWTH = $(patsubst %,bench/%.c,timing layout campaigns) $(C_BASELINE)
JOINS = $(patsubst %,bench/%.c,timing joiners layout same_joins chance campaigns) $(C_BASELINE) bench/baseline/join.c
BENCH_HEADERS = $(wildcard bench/*.h) $(C_BASELINE_HEADERS) $(HEADERS)

# What the device calls, what a controller of four campaigns does, and what a join takes.
DEVICE_CALLS = gt_fresh gt_admit gt_interpret gt_retire gt_take_back gt_forks gt_ancestors gt_build gt_digest gt_read_block
CONTROLLER_CALLS = $(DEVICE_CALLS) gt_arrive gt_shelf_in_form
JOIN_CALLS = gt_join

FUZZ_SEED ?= 1
FUZZ_CASES ?= 1000000
FUZZ_LISTINGS ?= 20000
PREFIX ?= /usr/local
DESTDIR ?=

CRATES := $(shell sed -n 's/^\([a-z0-9_]*\)\( staticlib\)\{0,1\}:.*/\1/p' crates.txt)

# All that the library and the listing are proved and built from. Folders of sources are among it, so that a removed file counts as a change.
LIBRARY_SOURCES := crates.txt $(shell find crates -mindepth 2 \( -name must-fail -o -name out \) -prune -o -print)

.PHONY: demo check test bench memory fuzz host install uninstall test-programs harness figures prerequisites clean
.DELETE_ON_ERROR:

# The first target, so that a plain `make` shows something working.
demo: host
	@echo
	@echo '$$ $(LISTING) < examples/four_sites.campaign'
	@$(LISTING) < examples/four_sites.campaign
	@echo
	@echo '$$ $(HOST)/dome < examples/arrivals.bin'
	@$(HOST)/dome < examples/arrivals.bin

# One crate and those that it needs, as far as they changed since they were last proved.
check: prerequisites
	@$(if $(filter $(CRATE),$(CRATES)),,echo "make check: CRATE is '$(CRATE)', which is none of: $(CRATES)" >&2; exit 1)
	cd crates/$(CRATE) && rt check

# The gate: layout, proofs, must-fail edits, host tests, memory. The last line is 'N passed, M failed'.
test: prerequisites
	@tools/gate.sh

# What the library costs on this machine, against the baseline and against a digest.
bench: prerequisites $(HOST)/bench_sha256 $(HOST)/bench_campaign $(HOST)/bench_table $(HOST)/bench_growth $(HOST)/bench_arrivals $(HOST)/bench_joins $(HOST)/listing_c $(HOST)/child $(LISTING)
	$(HOST)/bench_sha256
	@echo
	$(HOST)/bench_campaign
	@echo
	$(HOST)/bench_table
	@echo
	$(HOST)/bench_growth
	@echo
	$(HOST)/bench_arrivals
	@echo
	$(HOST)/bench_joins
	@echo
	python3 -B bench/listing.py target/streams $(HOST)/child $(LISTING) $(HOST)/listing_c

# What the core's calls take of the device's memory, and a controller's, and a join.
memory: prerequisites $(HOST)/device $(HOST)/controller $(HOST)/join $(HOST)/stack
	python3 bench/memory.py $(HOST)/device $(HOST)/controller $(HOST)/join $(HOST)/stack

# The library, and then the listing program, against the harness's model. A million cases take some minutes; another seed
# gives other cases.
fuzz: harness $(LISTING)
	$(HARNESS) --seed $(FUZZ_SEED) --cases $(FUZZ_CASES)
	$(HARNESS) --listing $(LISTING) --seed $(FUZZ_SEED) --cases $(FUZZ_LISTINGS)

# The proved library for C, the proved listing, and the control program.
host: prerequisites $(LIBRARY) $(LISTING) $(HOST)/dome

# A package is made with DESTDIR: the files are put below it, and know only of PREFIX.
install: host
	DESTDIR='$(DESTDIR)' tools/install.sh install '$(PREFIX)'

uninstall:
	DESTDIR='$(DESTDIR)' tools/install.sh uninstall '$(PREFIX)'

# What the host tests run.
test-programs: host $(HOST)/digests $(HOST)/calls $(HOST)/core_calls $(HOST)/record_calls $(HOST)/process_calls $(HOST)/watch_calls $(HOST)/shelf_calls $(HOST)/join_calls $(HOST)/retire_calls $(HOST)/take_back_calls $(HOST)/one_site $(HOST)/two_campaigns $(HOST)/two_controllers $(HOST)/long_campaign $(HOST)/wrong_campaign harness

# Cargo itself sees whether the harness's sources or the library changed.
harness: prerequisites $(LIBRARY)
	@cargo build --quiet --release --offline --manifest-path host/harness/Cargo.toml --target-dir target/harness

# The documents' figures that follow from the tree. A host test compares them.
figures: prerequisites
	python3 -B tools/figures.py

# Removes all that was built here. What rt ci has proved is kept beside the kit, by the checksums of what it read.
clean:
	rm -rf target crates/*/out

# Names each command that is missing of those that the goals need, and a toolchain other than the pinned one. All that is
# built waits for it. By itself it looks for every command.
prerequisites:
	@tools/prerequisites.sh $(filter-out prerequisites,$(or $(MAKECMDGOALS),$(.DEFAULT_GOAL)))
	@tools/toolchain.sh

$(LIBRARY): $(LIBRARY_SOURCES) rattle.version | prerequisites
	cd crates/c_interface && rt lib
	@mkdir -p $(@D)
	@cp crates/c_interface/out/libc_interface.a $@

# rt builds a program where it runs it, here on the crate's stored input.
$(LISTING): $(LIBRARY_SOURCES) rattle.version | prerequisites
	cd crates/listing && rt run >/dev/null
	@mkdir -p $(@D)
	@cp crates/listing/out/listing $@

# One after the other, also under make -j: they work on the same crates.
$(LISTING): | $(LIBRARY)

$(HOST)/dome: host/dome.c host/giangotum.h $(LIBRARY) | $(HOST)
	$(CC) $(CFLAGS) $(ONLY_REACHED) -Ihost -o $@ $< $(LIBRARY)

$(HOST)/digests $(HOST)/calls: $(HOST)/%: host/tests/%.c host/tests/checks.h host/giangotum.h $(LIBRARY) | $(HOST)
	$(CC) $(CFLAGS) -Ihost -o $@ $< $(LIBRARY)

$(HOST)/core_calls $(HOST)/record_calls $(HOST)/process_calls $(HOST)/watch_calls $(HOST)/shelf_calls $(HOST)/join_calls $(HOST)/retire_calls $(HOST)/take_back_calls: $(HOST)/%: host/tests/%.c $(wildcard host/tests/*.h) $(HEADERS) $(LIBRARY) | $(HOST)
	$(CC) $(CFLAGS) -Ihost -o $@ $< $(LIBRARY)

$(HOST)/one_site $(HOST)/two_campaigns $(HOST)/two_controllers $(HOST)/long_campaign $(HOST)/wrong_campaign: $(HOST)/%: examples/%.c $(HEADERS) $(LIBRARY) | $(HOST)
	$(CC) $(CFLAGS) $(ONLY_REACHED) -Ihost -o $@ $< $(LIBRARY)

$(HOST)/listing_c: bench/baseline/listing.c $(C_BASELINE) $(C_BASELINE_HEADERS) | $(HOST)
	$(CC) $(BENCH_CFLAGS) -o $@ $< $(C_BASELINE)

$(HOST)/child: bench/child.c bench/expect.h | $(HOST)
	$(CC) $(BENCH_CFLAGS) -o $@ $<

$(HOST)/bench_sha256 $(HOST)/bench_campaign: $(HOST)/bench_%: bench/%.c $(CAMPAIGNS) $(BENCH_HEADERS) $(LIBRARY) | $(HOST)
	$(CC) $(BENCH_CFLAGS) -Ihost -o $@ $< $(CAMPAIGNS) $(LIBRARY)

$(HOST)/bench_table: bench/table.c bench/timing.c bench/campaigns.c $(BENCH_HEADERS) $(LIBRARY) | $(HOST)
	$(CC) $(BENCH_CFLAGS) -Ihost -o $@ $< bench/timing.c bench/campaigns.c $(LIBRARY)

$(HOST)/bench_growth: bench/growth.c $(GROWTH) $(BENCH_HEADERS) $(LIBRARY) | $(HOST)
	$(CC) $(BENCH_CFLAGS) -Ihost -o $@ $< $(GROWTH) $(LIBRARY)

$(HOST)/bench_arrivals: bench/arrivals.c $(ARRIVALS) $(BENCH_HEADERS) $(LIBRARY) | $(HOST)
	$(CC) $(BENCH_CFLAGS) -Ihost -o $@ $< $(ARRIVALS) $(LIBRARY)

$(HOST)/bench_joins: bench/joins.c $(JOINS) $(BENCH_HEADERS) $(LIBRARY) | $(HOST)
	$(CC) $(BENCH_CFLAGS) -Ihost -o $@ $< $(JOINS) $(LIBRARY)

# Bound before the program starts, so that no call has the loader's work on its stack.
$(HOST)/stack: bench/stack.c bench/painted.c bench/campaigns.c bench/waiting.c $(BENCH_HEADERS) $(LIBRARY) | $(HOST)
	$(CC) $(BENCH_CFLAGS) -Ihost -o $@ $< bench/painted.c bench/campaigns.c bench/waiting.c $(LIBRARY) -lpthread -Wl,-z,now

# The calls by themselves: no C library, and nothing that they don't reach.
$(HOST)/device: CALLS = $(DEVICE_CALLS)
$(HOST)/controller: CALLS = $(CONTROLLER_CALLS)
$(HOST)/join: CALLS = $(JOIN_CALLS)
$(HOST)/device $(HOST)/controller $(HOST)/join: $(HOST)/device.o $(LIBRARY)
	$(CC) -nostdlib -static $(ONLY_REACHED) -Wl,--build-id=none,-e,$(firstword $(CALLS)) $(CALLS:%=-Wl,-u,%) -o $@ $(LIBRARY) $<

# The loops stay loops: gcc would make calls of the very functions out of them.
$(HOST)/device.o: bench/device.c | $(HOST)
	$(CC) $(CFLAGS) -Os -ffreestanding -fno-tree-loop-distribute-patterns -ffunction-sections -fno-asynchronous-unwind-tables -c -o $@ $<

$(HOST): | prerequisites
	mkdir -p $@
