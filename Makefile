# make alone prints the targets.

SHELL := bash

.PHONY: help test names wrong run compare lib archive examples rusttest bench

help:
	@echo 'make run      run meshrun on SCRIPT (default examples/q.script)'
	@echo 'make test     prove every crate, try the must-fail edits, run every program'
	@echo 'make names    check that every name in README.md and docs is there (needs python3; make test does it first, where there is one)'
	@echo 'make wrong    try the must-fail edits alone'
	@echo 'make lib      write target/lib/libullarvesp.a, for C and Rust on x86-64 to link (header: include/ullarvesp.h, crate: rust)'
	@echo 'make examples build and run the examples in C and Rust, and compare what they print (needs cc, cargo)'
	@echo 'make compare  run N random scripts (SEED) through meshdump and the Rust of plexus, and compare (needs cargo, python3)'
	@echo 'make rusttest run the tests of the Rust crate: the library against the Rust of plexus (needs cargo)'
	@echo 'make bench    time every call beside the Rust of plexus and a copy of the tables (needs cc, cargo)'
	@echo 'make help     print this list'

# $(call needs,PROGRAM,WHAT TO DO): stops with a word where a program is missing.
needs = command -v $(1) > /dev/null 2>&1 || { echo 'make $(MAKECMDGOALS): the program $(1) is not on PATH. $(2)' >&2; exit 1; }
needs_rt = $(call needs,rt,Install the Rattle kit and put its rt on PATH.)
needs_cargo = $(call needs,cargo,Install Rust.)
needs_python = $(call needs,python3,Install Python 3.)
needs_cc = $(call needs,$(CC),Install a C compiler.)

# The last line printed is rt's own: N passed, M failed. rt passes over must-fail edits that no longer fit the text, and counts them on its line
# rt: ok, as ", N bad"; such a line fails the test here.
test:
	@$(needs_rt)
	@! command -v python3 > /dev/null 2>&1 || python3 docs/check-names >&2
	@set -o pipefail; rt ci | { \
	  bad=0; \
	  while IFS= read -r line; do \
	    case $$line in 'rt: ok'*', '*' bad'*) bad=1; echo 'make test: must-fail edits are bad, as rt says above' >&2;; esac; \
	    printf '%s\n' "$$line"; \
	  done; \
	  exit $$bad; }

# Definitions, theorems, functions, must-fail edits, files and links that the documents name. docs/check-names says by which rule.
names:
	@$(needs_python)
	@python3 docs/check-names
	@echo 'make names: all that README.md and docs name is there'

# The must-fail edits alone.
wrong:
	@$(needs_rt)
	@rt must-fail

# ---- programs

# A program is compiled for x86-64. RUN stands before it: nothing there, elsewhere an emulator, by default the one that the kit brings.
RUN ?= $(shell [ "$$(uname -m)" = x86_64 ] || { \
  tools=$$(dirname "$$(rt doc)")/on/$$(uname -m)/toolchain; \
  [ ! -x "$$tools/bin/qemu-x86_64" ] || echo "$$tools/bin/qemu-x86_64 $$tools/lib/ld-linux-x86-64.so.2 --library-path $$tools/lib"; })
needs_run = [ "$$(uname -m)" = x86_64 ] || [ -n '$(RUN)' ] || { \
  echo "make $(MAKECMDGOALS): programs are compiled for x86-64, and this machine is $$(uname -m). Give RUN, what runs such a program here." >&2; exit 1; }

SCRIPT ?= examples/q.script

run: target/bin/meshrun
	@[ -f '$(SCRIPT)' ] || { echo 'make run: there is no file $(SCRIPT). Give SCRIPT, the script to run.' >&2; exit 1; }
	@$(needs_run)
	@$(RUN) target/bin/meshrun < '$(SCRIPT)'

# A program is proved, with all that it stands on, before it is built. rt builds it in its crate's out/, and runs it: here once, on no input.
SOURCES := crates.txt $(shell find crates -regex 'crates/[^/]*/out' -prune -o \( -name '*.rt' -o -name '*.antt' \) -print)
target/bin/%: $(SOURCES)
	@$(needs_rt)
	@echo 'proving and building $* (long, the first time)' >&2
	@cd crates/$* && rt run < /dev/null > /dev/null
	@mkdir -p target/bin && cp crates/$*/out/$* $@

# ---- the Rust of plexus

# The oracle runs it: its folder, and in it build.sh, which takes the sources of plexus from PLEXUS_SRC.
ORACLE ?= ../shared/oracle
PLEXUS_SRC ?= ../shared/docs/src
ORACLE_BUILD ?= $(CURDIR)/target/oracle
N ?= 1000
SEED ?= 1

$(ORACLE_BUILD)/oracle: $(wildcard $(ORACLE)/build.sh $(ORACLE)/*/* $(PLEXUS_SRC)/*)
	@[ -f '$(ORACLE)/build.sh' ] || { echo 'make $(MAKECMDGOALS): there is no $(ORACLE)/build.sh. Give ORACLE, the folder of the oracle.' >&2; exit 1; }
	@$(needs_cargo)
	@echo 'building the oracle' >&2
	@mkdir -p target
	@PLEXUS_SRC='$(abspath $(PLEXUS_SRC))' ORACLE_BUILD='$(ORACLE_BUILD)' '$(ORACLE)/build.sh' > target/oracle.log 2>&1 || { cat target/oracle.log >&2; exit 1; }
	@touch $@

compare: target/bin/meshdump $(ORACLE_BUILD)/oracle
	@$(needs_python)
	@$(needs_run)
	@python3 compare/compare.py $(ORACLE_BUILD)/oracle $(N) $(SEED) $(RUN) target/bin/meshdump

# ---- the library for C and Rust

# rt writes x86-64 code. LIB names an archive to link in its place, one for this machine's processor for instance.
LIB ?=
ARCHIVE = $(if $(LIB),$(abspath $(LIB)),$(CURDIR)/target/lib/libullarvesp.a)
CARGO = ULLARVESP_LIB='$(ARCHIVE)' CARGO_TARGET_DIR='$(CURDIR)/target/rust' cargo

lib: target/lib/libullarvesp.a
	@echo 'target/lib/libullarvesp.a: proved, and compiled for x86-64 Linux'

target/lib/libullarvesp.a: $(SOURCES)
	@$(needs_rt)
	@echo 'proving and compiling the library (long, the first time)' >&2
	@mkdir -p target/lib
	@(cd crates/calls && rt lib) > target/lib.log 2>&1 || { cat target/lib.log; exit 1; }
	@cp crates/calls/out/libcalls.a $@

# The archive to link: the one given, or ours where it can run.
archive:
	@if [ -n '$(LIB)' ]; then \
	  [ -f '$(LIB)' ] || { echo 'make: LIB: there is no file $(LIB)' >&2; exit 1; }; \
	elif [ "$$(uname -m)" != x86_64 ]; then \
	  echo "make: the library is compiled for x86-64, and this machine is $$(uname -m). LIB=ARCHIVE names another archive to link." >&2; exit 1; \
	else $(MAKE) --no-print-directory lib; fi
	@mkdir -p target

examples: archive
	@$(needs_cc)
	@$(needs_cargo)
	@$(CC) -std=c99 -Wall -Wextra -pedantic -O2 -Iinclude -o target/tent examples/tent.c '$(ARCHIVE)'
	@target/tent > target/tent-c.out
	@cmp target/tent-c.out examples/tent.out
	@$(CARGO) run --quiet --offline --manifest-path rust/Cargo.toml --example tent > target/tent-rust.out
	@cmp target/tent-rust.out examples/tent.out
	@cat examples/tent.out
	@echo 'make examples: the programs in C and Rust both print this'

# ULLARVESP_SCRIPTS and ULLARVESP_SEED: how many scripts, and which (rust/tests/library/main.rs).
rusttest: archive $(ORACLE_BUILD)/oracle
	@ORACLE_BIN='$(ORACLE_BUILD)/oracle' ORACLE_CASES='$(abspath $(ORACLE))/cases' \
	  $(CARGO) test --offline --manifest-path rust/Cargo.toml -- --nocapture

target/lib/libtablebench.a: $(SOURCES)
	@$(needs_rt)
	@mkdir -p target/lib
	@(cd crates/tablebench && rt lib) > target/bench.log 2>&1 || { cat target/bench.log; exit 1; }
	@cp crates/tablebench/out/libtablebench.a $@

# BENCH_MS: the milliseconds spent on each figure (bench/src/main.rs). The leaves are timed with our own archive alone.
bench: archive $(ORACLE_BUILD)/oracle
	@$(needs_cc)
	@if [ -z '$(LIB)' ]; then \
	  $(MAKE) --no-print-directory target/lib/libtablebench.a || exit 1; \
	  $(CC) -O2 -o target/bench-tables bench/tables.c target/lib/libtablebench.a && target/bench-tables && echo; fi
	@$(CC) -std=c11 -O2 -Iinclude -o target/bench-calls bench/calls.c '$(ARCHIVE)' && target/bench-calls && echo
	@rm -rf target/plexus && cp -Rp '$(ORACLE_BUILD)/tree' target/plexus
	@$(CARGO) run --quiet --release --offline --manifest-path bench/Cargo.toml
