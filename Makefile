# make run                                        the door story of examples/, answered by the bench program
# make run SCRIPT=my.script                       a script of your own
# make waves [SCRIPT=my.script]                   the pins of a script as a value change dump, shown by GTKWave where that is installed
# make soak DIR=scripts [CORES=2]                 every script of a folder, on all cores
# make test                                       the gate: proofs, wrong programs refused, programs run
# make oracle MCS=../MCS                          the Rust as judge; MCS is a checkout of GabePurc/MCS at fb281a0906
# make oracle MCS=../MCS CALLS=10000000 SEED=7    a longer comparison, from another seed
# make oracle MCS=../MCS BENCH=                   without the bench program: needs Rust alone
# make dump [LOGS=1000] [SEED=1]                  the dump program beside a model in Python, on random logs cut at every place, and on other files
# make bindings [MCS=../MCS]                      the static libraries, the Rust crate over them, and its tests
# make simavr                                     AVR programs on simavr with the proved timers; needs libsimavr-dev, gcc-avr, avr-libc
# make speed MCS=../MCS                           the timer beside the Rust, in nanoseconds and instructions

SCRIPT ?= examples/door.script
DIR ?=
CORES ?= $(shell nproc)
MCS ?=
CALLS ?= 300000
SEED ?= 1
LOGS ?= 1000
BENCH ?= target/bin/bench
ORACLE := oracle/target/release

LIBRARY := target/staticlib/libshell.a
DOORLOG := target/staticlib/libdoorlog.a
WARN := -Wall -Wextra -Wpedantic -Werror

CARGO := MCS="$(abspath $(MCS))" cargo

.PHONY: run waves soak test oracle against-bench dump library bindings simavr speed
.DELETE_ON_ERROR:

# Each command of the script with its answer under it; the story's answers are held to those that are stored.
run:
	$(if $(shell test -f "$(SCRIPT)" && test -r "$(SCRIPT)" && echo yes),,$(error run: there is no script $(SCRIPT) that can be read))
	@examples/run.sh "$(SCRIPT)"

waves:
	$(if $(shell test -f "$(SCRIPT)" && test -r "$(SCRIPT)" && echo yes),,$(error waves: there is no script $(SCRIPT) that can be read))
	@examples/waves.sh "$(SCRIPT)"

soak:
	$(if $(shell test -d "$(DIR)" && echo yes),,$(error soak: name a folder of scripts, as in: make soak DIR=scripts))
	@examples/soak.sh "$(DIR)" "$(CORES)"

test:
	bash .ci/run

# The program stands on nearly every crate, and is linked once all of them are proved.
target/bin/bench: crates.txt $(shell find crates -type f ! -path '*/must-fail/*' ! -path '*/out/*')
	@examples/program.sh bench > /dev/null
	@touch $@

# oracle/README.md says how to read what it prints.
oracle:
	@test -n "$(MCS)" || { echo "oracle: name a checkout of GabePurc/MCS at fb281a0906, as in: make oracle MCS=../MCS" >&2; exit 1; }
	$(CARGO) build --release --offline --manifest-path oracle/Cargo.toml --target-dir oracle/target
	$(ORACLE)/compare --sources "$(MCS)"
	oracle/check.sh
	$(ORACLE)/compare --bends $(SEED)
	$(ORACLE)/compare $(CALLS) $(SEED)
	@if test -n "$(BENCH)"; then $(MAKE) --no-print-directory against-bench; else echo "oracle: the bench program is left out, since BENCH is empty"; fi

# The bench program against the Rust, when the oracle is built.
against-bench: $(BENCH)
	$(ORACLE)/compare --program $(BENCH) $(CALLS) $(SEED)
	$(ORACLE)/compare --watchdog $(BENCH) $(CALLS) $(SEED)
	$(ORACLE)/compare --board $(BENCH) $(CALLS) $(SEED)
	oracle/files.sh $(BENCH)

# oracle/dump/README.md has more.
dump:
	@program=$$(examples/program.sh vcd) && python3 oracle/dump/compare.py "$$program" $(LOGS) $(SEED) $(CORES) && python3 oracle/dump/files.py "$$program"

library:
	@mkdir -p target/staticlib
	cd crates/shell && rt lib
	cd crates/doorlog && rt lib
	cp crates/shell/out/libshell.a crates/doorlog/out/libdoorlog.a target/staticlib

# With MCS the crate is also compared with the Rust; bindings/README.md has more.
bindings: library
	cargo test --release --offline --manifest-path bindings/rust/Cargo.toml
	$(CC) $(WARN) -std=c11 -o target/t1 bindings/c/t1.c $(LIBRARY)
	target/t1
	$(CXX) $(WARN) -std=c++11 -o target/door bindings/c/door.cpp $(LIBRARY)
	target/door
	$(CC) $(WARN) -std=c11 -o target/board bindings/c/board.c $(LIBRARY)
	target/board
	$(CXX) $(WARN) -std=c++11 -o target/board -x c++ bindings/c/board.c -x none $(LIBRARY)
	target/board
	$(CC) $(WARN) -std=c11 -o target/doorlog bindings/c/doorlog.c $(LIBRARY) $(DOORLOG)
	target/doorlog
	$(CC) $(WARN) -std=c11 -o target/m328p bindings/c/m328p.c
	@target/m328p | while read -r keys; do grep -qF "\"$$keys\"" oracle/src/script/presets.rs || { echo "bindings: paddlemauve_m328p.h has a timer that is no preset: $$keys" >&2; exit 1; }; done
ifneq ($(MCS),)
	$(CARGO) build --release --offline --manifest-path bindings/against/Cargo.toml
	bindings/against/target/release/against $(CALLS) $(SEED)
	$(CARGO) build --release --offline --manifest-path bindings/mcs-sim/beside/Cargo.toml
	bindings/mcs-sim/beside/target/release/beside $(CALLS) $(SEED)
endif

# bindings/simavr/README.md has more.
simavr:
	@bindings/simavr/try.sh needs
	@$(MAKE) --no-print-directory library
	@bindings/simavr/try.sh $(LIBRARY)

# docs/SPEED.md says what is measured, and how.
speed: library
	@test -n "$(MCS)" || { echo "speed: name a checkout of GabePurc/MCS at fb281a0906, as in: make speed MCS=../MCS" >&2; exit 1; }
	$(CARGO) build --release --offline --manifest-path speed/Cargo.toml
	speed/target/release/speed
