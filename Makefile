# `make run` shows the store at work. `make test` is the whole gate; it closes with rt ci's line 'N passed, 0 failed'.
SHELL = /bin/bash
CARGO = cargo
TOOLS = rust/target/release
SAMPLE = target/sample
LIBRARY = target/libsnowpulley.a
# The crates with functions for C: an archive of each, all in one library.
PARTS = capi capi_cluster capi_audit
# The crates of crates.txt: behind a name its kind can stand, as in `capi staticlib: wire`.
CRATES = $$(sed -n 's/^\([a-z0-9_]*\)[^:\#]*:.*/\1/p' crates.txt)
# How many crates are proved, or wrong answers tried, side by side.
JOBS = $(shell nproc)
# The Rust crates with tests that link the proved library.
LINKED = -p snowpulley-sys -p snowpulley -p snowpulley-cli -p snowpulley-differential -p snowpulley-bench
.PHONY: run replay test gate proved lint reference tools tool expected tails replayed library differential compared fuzz bench performance sizes mutants wrong-answers fmt

# $(call told,LOG,COMMAND): runs rt, and tells how far it is. The whole output is in the log.
told = mkdir -p $(SAMPLE); set -o pipefail; { $(2); } 2>&1 | tee $(SAMPLE)/$(1) | sed -un -e 's/^rt: /  /p' -e 's/^== /  /p' || { cat $(SAMPLE)/$(1); exit 1; }

# What went wrong on the site, on the proved library.
run: tool
	@$(TOOLS)/snowpulley demo

# The sample journal with its replies: those of the proved program, of the proved library and of the second program are the same.
replay: tool tools target/bin/replay
	@$(TOOLS)/journal $(SAMPLE)/journal $(SAMPLE)/expected
	@target/bin/replay <$(SAMPLE)/journal >$(SAMPLE)/program
	@$(TOOLS)/snowpulley replay $(SAMPLE)/journal --replies $(SAMPLE)/replies
	@cmp $(SAMPLE)/expected $(SAMPLE)/program && cmp $(SAMPLE)/expected $(SAMPLE)/replies

# What `rt ci` proves it keeps for itself, so it comes last, and what the steps before it need is proved first.
test:
	@$(MAKE) --no-print-directory lint reference
	@$(MAKE) --no-print-directory proved
	@$(MAKE) --no-print-directory expected tails replayed library compared
	@$(MAKE) --no-print-directory wrong-answers ONCE=--once
	@$(MAKE) --no-print-directory gate

# The merge gate of rt: every proof, the edits of must-fail/, the tests and the programs. Nor may an edit be one that rt cannot try.
gate:
	@mkdir -p $(SAMPLE); set -o pipefail; rt ci | tee $(SAMPLE)/ci.log
	@if ! grep -q '^rt: ok;' $(SAMPLE)/ci.log || grep -qE '^rt: ok;.*[ ,][1-9][0-9]* bad' $(SAMPLE)/ci.log; then \
	    grep -E 'BAD EDIT' $(SAMPLE)/ci.log; echo 'rt ci has bad must-fail edits'; exit 1; \
	fi

# The Rust side's layout and lints.
lint:
	cd rust && $(CARGO) fmt --check
	cd rust && $(CARGO) clippy --offline --quiet --workspace --all-targets -- -D warnings

# The second program and its own tests.
reference:
	cd rust && $(CARGO) test --release --offline --quiet

tools:
	@mkdir -p target
	@cd rust && $(CARGO) build --release --offline --quiet

# The command-line tool, over the proved library.
tool: library
	@cd rust && $(CARGO) build --release --offline --quiet -p snowpulley-cli

# Every crate, over what earlier checks here kept.
proved:
	@echo "Proving the crates, some minutes from nothing:"
	@$(call told,proved.log,rt all check --jobs $(JOBS))

# The proved replay program: rt run builds it where something has changed, and runs it on an empty journal.
.PHONY: target/bin/replay
target/bin/replay: tools
	@mkdir -p target/bin
	@$(call told,replay.log,cd crates/replay && rt run </dev/null)
	@install -m 755 crates/replay/out/replay $@

# Journals that are empty, end inside a record or have a LEN out of range.
TAILS = empty clean time no-frame len no-body body checksum len-5 len-599 len-65535
tails: target/bin/replay
	@for kind in $(TAILS); do \
	    $(TOOLS)/journal --tail $$kind $(SAMPLE)/tail $(SAMPLE)/tail.expected && \
	    target/bin/replay <$(SAMPLE)/tail >$(SAMPLE)/tail.replies && \
	    cmp $(SAMPLE)/tail.expected $(SAMPLE)/tail.replies || exit 1; \
	done
	@echo "replay of $(TAILS): as expected"

# The proved replay program as a process: journals of several buffers, input in pieces, a conversation, a closed output.
replayed: target/bin/replay
	cd rust && $(CARGO) test --release --offline --quiet -p snowpulley-replayed

# The proved library for C and Rust, made again where something that it may depend on has changed.
library: $(LIBRARY)
$(LIBRARY): crates.txt $(shell find crates -name out -prune -o \( -name '*.rt' -o -name '*.antt' \) -print)
	@echo "Proving the library, some minutes from nothing and one for its last crates, $(PARTS):"
	@$(call told,library.log,for part in $(PARTS); do (cd crates/$$part && rt lib) || exit 1; done)
	@mkdir -p target && rm -f $@
	@printf '%s\n' 'create $@' $(foreach part,$(PARTS),'addlib crates/$(part)/out/lib$(part).a') save end | ar -M

# The C example, the wrapper, the tool, and every family of calls against the second program, with fixed seeds.
differential: library
	@$(MAKE) --no-print-directory compared

compared:
	cd rust && $(CARGO) test --release --offline --quiet $(LINKED)

# The same for as long as one likes: make fuzz SECONDS=600 SEED=7
SECONDS = 60
SEED = 1
fuzz: library
	cd rust && $(CARGO) run --release --offline --quiet -p snowpulley-differential --bin fuzz -- $(SECONDS) $(SEED)

# The proved library beside the second program, the two replay programs, and the stack that each call takes.
BENCH = cd rust && $(CARGO) run --release --offline --quiet -p snowpulley-bench --
bench: library target/bin/replay
	$(BENCH)
	$(BENCH) replay
	$(BENCH) stack

# The same, written into docs/PERFORMANCE.md with its chart.
performance: library target/bin/replay
	$(BENCH) write

# The lines of each crate and its edits, as the rows of a table in docs/PERFORMANCE.md.
count = $$(find crates/$$c/$(1) 2>/dev/null $(2) -exec cat {} + | wc -l)
edits = $$(find crates/$$c/$(1) -name '*.edit' 2>/dev/null | wc -l)
sizes:
	@for c in $(CRATES); do \
	    echo "| \`$$c\` | $(call count,src,-name '*.rt' ! -name entries.rt) | $(call count,specs,-name '*.antt') |" \
	        "$(call count,proofs,-name '*.antt') | $(call edits,must-fail) | $(call edits,wrong-answers) |"; \
	done

# Mutants of the code, and of the definitions that contracts cite: make mutants CRATE=store N=60 SEED=7 (no CRATE: every crate)
CRATE =
N = 150
mutants:
	cd rust && $(CARGO) run --release --offline --quiet -p snowpulley-mutants -- run $(addprefix --crate ,$(CRATE)) --code $(N) --seed $(SEED) --jobs $(JOBS) ..

# Each wrong answer in crates/*/wrong-answers: make wrong-answers CRATE=store (no CRATE: every crate; ONCE=--once: one for each name)
ONCE =
wrong-answers:
	cd rust && $(CARGO) run --release --offline --quiet -p snowpulley-mutants -- edits $(addprefix --crate ,$(CRATE)) $(ONCE) --jobs $(JOBS) ..

# What the proved programs are held to is what the second program writes.
expected: tools
	@mkdir -p $(SAMPLE)
	@$(TOOLS)/journal $(SAMPLE)/stdin $(SAMPLE)/stdout
	cmp $(SAMPLE)/stdin crates/replay/stdin
	cmp $(SAMPLE)/stdout crates/replay/stdout
	@$(TOOLS)/points >$(SAMPLE)/points
	cmp $(SAMPLE)/points crates/points/stdout

fmt:
	@for c in $(CRATES); do (cd crates/$$c && rt fmt) || exit 1; done
	cd rust && $(CARGO) fmt
