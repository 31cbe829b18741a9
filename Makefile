RT ?= rt
PROGRAM := crates/srm_lab/out/srm_lab
SOURCES := crates.txt $(shell find crates -path '*/out' -prune -o \( -name '*.rt' -o -name '*.antt' \) -print)
CRATES := $(notdir $(patsubst %/src,%,$(wildcard crates/*/src)))
TEST_PROGRAMS := $(foreach crate,$(filter %_tests,$(CRATES)),crates/$(crate)/out/$(crate)_tests)
PREFIX ?= /usr/local
SCENARIO ?= examples/two-nodes.toml
ARGUMENTS ?=
TRIED ?= out/try
CRATE ?=
BENCH ?=
SECONDS ?= 60
# how many checks are made at a time: one for each processor, where each has 5 GB of memory
RT_JOBS ?= $(shell awk -v n=$$(nproc) '/MemAvailable/ { m = int($$2 / 5e6); print (m < 1 ? 1 : m < n ? m : n) }' /proc/meminfo)
export RT

.PHONY: build run try check test test-program fuzz bench install fmt clean help

build: $(PROGRAM) ## proves and builds the program, where a source is newer than it

$(PROGRAM): $(SOURCES)
	tools/build_libraries.py crates/srm_lab $(RT_JOBS)
	cd crates/srm_lab && $(RT) run --jobs $(RT_JOBS) -- --version
	@touch $@

$(TEST_PROGRAMS): $(SOURCES)
	cd $(@D)/.. && $(RT) test
	@touch $@

run: $(PROGRAM) ## prints a trace, or what ARGUMENTS="--show links" ask for, of SCENARIO=FILE
	@$(PROGRAM) $(EXPLAIN) $(ARGUMENTS) < $(SCENARIO)

try: ## the same, unproved: compiled in minutes, and run at once while no source changes
	@tools/try_program.py $(TRIED) crates/srm_lab $(EXPLAIN) $(ARGUMENTS) < $(SCENARIO)

check: ## what an edit needs: proves what changed (or CRATE=srm_net), and checks documents
	@tools/gate.py --scripts tests/sources
	cd crates/$(CRATE) && $(RT) $(if $(CRATE),check,all check --jobs $(JOBS))

test: ## the merge gate: `rt ci`, then the scripts of tests/ on what it built
	@RT_JOBS=$(RT_JOBS) SRM_LAB=$(abspath $(SRM_LAB)) tools/gate.py tests/sources tests/fuzz tests/program python/tests/plain.py python/tests/all.py

test-program: $(PROGRAM) $(TEST_PROGRAMS) ## runs the built program: its tables, refusals, options, limits, memory
	@SRM_LAB=$(abspath $(SRM_LAB)) tools/gate.py --scripts tests/program tests/fuzz

fuzz: $(PROGRAM) ## tries random scenarios, each table computed a second time: make fuzz SECONDS=60
	@tests/fuzz/fuzz.py --seconds $(SECONDS)

bench: $(PROGRAM) ## tells how fast the program is, beside a plain one: make bench BENCH=--long
	@bench/events_per_second.py $(PROGRAM) $(BENCH)
	@bench/time_of_tables.py $(PROGRAM)
	@bench/time_of_engines.py $(PROGRAM)
	@bench/time_of_replications.py $(PROGRAM)

fmt: ## lays out the sources of each crate
	@for crate in $(CRATES); do (cd crates/$$crate && $(RT) fmt) || exit 1; done

clean: ## removes what was built, and every proof that was kept
	rm -rf out crates/*/out

help: ## lists these targets
	@$(HELP)

install: $(PROGRAM) ## copies the program to PREFIX/bin, by default /usr/local/bin
	install -D -m 755 $(PROGRAM) $(DESTDIR)$(PREFIX)/bin/srm_lab

include experiments/targets.mk experiments/repository.mk
