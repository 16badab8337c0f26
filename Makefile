.PHONY: test model run beamgantry library compare program replay replay_program script_library scripts bench copies

# A day file for `make run`, a script for `make replay`, and the generated days for `make compare`.
DAY ?= crates/day_cases/data/worked-example.day
SCRIPT ?= crates/replay/stdin
FIRST ?= 1
COUNT ?= 6000

# What a library is built from: it is built again where one of these is newer.
SOURCES := crates.txt $(shell find crates -name out -prune -o -type f -print)

MODEL = cargo run --quiet --release --manifest-path tests/model/Cargo.toml --

# The last line is the verdict of `rt ci`.
test:
	@scripts/test.sh

# The model's own tests, which link both libraries, as every use of the model does.
model: library script_library
	@cargo test --quiet --release --manifest-path tests/model/Cargo.toml

run: beamgantry
	@target/bin/beamgantry < $(DAY)

# Proves what the program needs, where that is not done yet, and builds it; the same for the library.
beamgantry:
	@scripts/prove.sh program beamgantry

library: target/staticlib/libexports.a

script_library: target/staticlib/libscript.a

target/staticlib/lib%.a: $(SOURCES)
	@scripts/prove.sh library $*

compare: library script_library
	@$(MODEL) compare $(FIRST) $(COUNT)

# The program itself, through pipes, also such as make it wait or fail.
program: beamgantry library script_library
	@$(MODEL) program target/bin/beamgantry 1 300

replay_program:
	@scripts/prove.sh program replay

# Scripts: one from a file; library, program and model on generated ones.
replay: replay_program
	@target/bin/replay < $(SCRIPT)

scripts: replay_program library script_library
	@$(MODEL) scripts 1 3000
	@$(MODEL) replay target/bin/replay 1 100

# Bytes copied, then times beside the model's.
bench: library script_library copies
	@$(MODEL) bench

# Bytes that a command copies, by kind, in the program of day files and in that of scripts.
copies: beamgantry replay_program
	@tests/copies/count.sh target/bin/beamgantry target/bin/replay
