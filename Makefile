# The jobs of this repository. `make test` is the gate: what it prints last decides.

# The published Rust, for the comparison; a relative path counts from here.
OLD ?= ../shared/docs/src/crates/zmidi-sysex/src
export OLD

CARGO = cargo
COMPARE = $(or $(CARGO_TARGET_DIR),compare/target)/release/compare
C_FLAGS = -std=c11 -Wall -Wextra -Wpedantic -Werror -O2
ARCHIVE = target/staticlib/libfimbrast.a

# What the archive is made of: fimbrast_c and the crates that its line in crates.txt names. The folders stand here too, for a file that
# went away.
ARCHIVE_CRATES := $(addprefix crates/,fimbrast_c $(shell sed -n 's/^fimbrast_c[^:]*://p' crates.txt))
ARCHIVE_SOURCES := crates.txt $(shell find $(wildcard $(ARCHIVE_CRATES:=/src) $(ARCHIVE_CRATES:=/specs) $(ARCHIVE_CRATES:=/proofs)))
# FIMBRAST_LIB names another folder that has an archive; then none is built for the Rust parts.
LINKED = $(if $(FIMBRAST_LIB),,$(ARCHIVE))

# The program that makes files from the Rattle source and the version in bindings/rust/Cargo.toml.
MAKE_BINDINGS = --offline --quiet --manifest-path bindings/make_bindings/Cargo.toml

PART ?= mtc

.NOTPARALLEL:
.PHONY: test part run program minute-starts prove listed words library bindings bindings-made write-bindings c-example compare compare-long bench names after-proof

test:
	@.ci/run

# One crate and those below it: proved, and their edits refused. PART=name says which.
part:
	@.ci/judge target/part.log rt ci $(PART)

# Says in plain words what becomes of the example strings, good and bad.
run: program
	@target/bin/mmc_check examples/strings.txt

# Puts a proved program into target/bin: $(1) is its crate, $(2) the arguments of the run after the build.
built = mkdir -p target/bin && { (cd crates/$(1) && rt run $(2) > ../../target/run.log 2>&1) || { tail -n 20 target/run.log; exit 1; }; } && \
  cp -f crates/$(1)/out/$(1) target/bin/$(1)

# target/bin/mmc_check; rt asks it for its page of help.
program:
	@$(call built,mmc_check,-- --help)

# target/bin/minute_starts. Its sixty lines are the constants by which labels are counted at drop-frame, as the source has them.
minute-starts:
	@$(call built,minute_starts,)
	@tools/minute_starts target/bin/minute_starts

# Proves every crate, runs the programs, tries the edits that must be refused: the gate without what comes after the proof.
prove:
	@.ci/judge target/gate.log rt ci

# The library for C and Rust, and what it answers there; where cargo or the published Rust is missing, a line says what was left out.
after-proof:
	@$(MAKE) --no-print-directory listed names words minute-starts library c-example
	@if $(CARGO) --version >/dev/null 2>&1; then $(MAKE) --no-print-directory bindings-made bindings; \
	  else echo "bindings/rust was not tested, the made files not made again, and old not compared with new: there is no cargo here"; fi
	@if ! $(CARGO) --version >/dev/null 2>&1; then :; \
	  elif [ -f "$(OLD)/mtc.rs" ]; then $(MAKE) --no-print-directory compare; \
	  else echo "old was not compared with new: no mtc.rs in $(OLD); give its folder with OLD=.."; fi

# Each crate has its line in crates.txt: without one it is not proved. A folder with nothing but what rt made is no crate.
listed:
	@for d in crates/*/; do n=$$(basename "$$d"); [ "$$(ls "$$d")" = out ] || \
	  grep -Eq "^[[:space:]]*$$n([[:space:]][^:]*)?:" crates.txt || { echo "crates/$$n is not in crates.txt"; exit 1; }; done

# Each name of specs/ and proofs/ has one meaning.
names:
	@tools/names

# What mmc_check says of the example strings and of the handbook's.
words: program
	@examples/check

# target/staticlib/libfimbrast.a, for C and Rust to link.
library: $(ARCHIVE)
	@echo "$(ARCHIVE) is made of the sources as they are"

# It is as old as the moment when its making began: a source that moves meanwhile is newer.
$(ARCHIVE): $(ARCHIVE_SOURCES)
	@mkdir -p $(@D) && touch target/staticlib.begun
	@cd crates/fimbrast_c && rt lib > ../../target/staticlib.log 2>&1 || \
	  { tail -n 20 ../../target/staticlib.log >&2; echo "$(ARCHIVE) could not be made" >&2; exit 1; }
	@cp crates/fimbrast_c/out/libfimbrast_c.a $@.new && touch -r target/staticlib.begun $@.new && mv $@.new $@

# The example and the header's layout, compiled without a warning, print what they should.
c-example: $(ARCHIVE)
	@mkdir -p target/c
	@for p in example layout; do \
	  $(CC) $(C_FLAGS) bindings/c/$$p.c -Ibindings/c $(ARCHIVE) -o target/c/$$p && \
	  target/c/$$p > target/c/$$p.out && diff target/c/$$p.out bindings/c/$$p.out || exit 1; done; echo "bindings/c: example and layout as expected"

# What C and Rust are told of the library is what its source says: the made files are those that would be made now. They are made
# outside the checkout, where rt would refuse a Rattle file that no crate has.
bindings-made:
	@$(CARGO) test $(MAKE_BINDINGS)
	@made=$$(mktemp -d) && trap 'rm -rf "$$made"' EXIT && $(CARGO) run $(MAKE_BINDINGS) -- . "$$made" && \
	for f in $$(cd "$$made" && find * -type f); do diff -u $$f "$$made/$$f" || \
	  { echo "$$f is not what the source makes: run \`make write-bindings\` and commit what it writes"; exit 1; }; done
	@echo "bindings: the made files are those of the source"

# Makes them anew, and tells cargo of the version.
write-bindings:
	@$(CARGO) run $(MAKE_BINDINGS) -- . .
	@for d in bindings/rust bench compare; do $(CARGO) update --offline --quiet --package fimbrast --manifest-path $$d/Cargo.toml || exit 1; done

# The tests of the Rust crate over the library.
bindings: $(LINKED)
	@cd bindings/rust && $(CARGO) test --offline --quiet

# Old against new, each group once.
compare: $(LINKED)
	@$(CARGO) build --release --offline --quiet --manifest-path compare/Cargo.toml
	@$(COMPARE)

# The same with new seeds for an hour.
compare-long: $(LINKED)
	@$(CARGO) build --release --offline --quiet --manifest-path compare/Cargo.toml
	@$(COMPARE) --long 60

# Old against new by time and by instructions; docs/BENCHMARKS.md says what the tables mean.
bench: $(LINKED)
	@bench/run
