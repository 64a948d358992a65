# Thin, over the toolchain's rt and cargo. Each target does its own set-up.
.PHONY: run test soak bench archive definitions vectors

# builds the programs and lists a worked example; TABLE=FILE lists a table of your own, TEXT=FILE a program that is given as text, and
# PROGRAM=tick shows the tick of either and PROGRAM=first_tick the most entries of its first. Each program is named before it is proved and built, on standard error, and all that rt said if one is not
TABLE = examples/w1.table
TEXT =
PROGRAM = list
run:
	@echo "Proving and building the programs; the first time this takes some minutes" >&2
	@{ tools/build.sh list tick first_tick translate && echo "build: ok"; } 2>&1 | tee target-run.log | sed -un '/^build: /p' >&2
	@tail -n 1 target-run.log | grep -q '^build: ok' || { cat target-run.log >&2; rm -f target-run.log; exit 1; }
	@rm -f target-run.log
	@if [ -n "$(TEXT)" ]; then tools/run_text.sh $(PROGRAM) $(TEXT); else crates/$(PROGRAM)/out/$(PROGRAM) < $(TABLE); fi

# the gate: everything proved (by this run, or of the same files by an earlier one on the machine), every must-fail edit refused, every program's output compared, all formatted
test:
	@tools/test.sh

# the differential tests with fresh seeds, for as long as is said
SECONDS = 600
soak: archive
	@tools/differential.sh --soak $(SECONDS)

# ours and the implementation in compare/ on the same inputs in the same run, and the analysis in C by hand: times, then instructions
bench: archive
	@cd compare && cargo run --release --offline --locked --quiet --package bench
	@compare/bench/instructions.sh

archive:
	@tools/archive.sh > target-archive.log 2>&1 || { cat target-archive.log; rm -f target-archive.log; exit 1; }
	@rm -f target-archive.log

# the definitions against vectors made by another program, and edges of documents 01 and 02
definitions:
	@python3 tools/run_definitions.py

# writes the expected outputs of the program crates again, by the implementation in compare/, and shows what differs
VECTORS = ../shared/vectors
vectors:
	@cd compare && cargo build --release --offline --quiet
	@compare/target/release/tables --listing-vectors $(VECTORS)/listing7_open.jsonl --tables-of $(VECTORS)/listing5_open.jsonl --tables-of $(VECTORS)/listing_open.jsonl --marks-of $(VECTORS)/reentry_open.jsonl crates/tables/stdin crates/tables/stdout
	@compare/target/release/instants --instant-vectors $(VECTORS)/packed_open.jsonl --instants-of $(VECTORS)/instants7_open.jsonl --instants-of $(VECTORS)/instants_open.jsonl --runs-of $(VECTORS)/reentry_open.jsonl crates/instants/stdin crates/instants/stdout
	@compare/target/release/texts --text-vectors $(VECTORS)/text_open.jsonl --text-vectors $(VECTORS)/dialect_open.jsonl crates/texts/stdin crates/texts/stdout
	@compare/target/release/ticks --tick-vectors $(VECTORS)/tick_open.jsonl crates/ticks/stdin crates/ticks/stdout
	@compare/target/release/partitions --block-vectors $(VECTORS)/blocks_open.jsonl crates/partitions/stdin crates/partitions/stdout
	@compare/target/release/narrowings --tied-vectors $(VECTORS)/tied_open.jsonl crates/narrowings/stdin crates/narrowings/stdout
	@compare/target/release/questions --question-vectors $(VECTORS)/query_open.jsonl crates/questions/stdin crates/questions/stdout
	@compare/target/release/trials --trial-vectors $(VECTORS)/trial_open.jsonl crates/trials/stdin crates/trials/stdout
	@compare/target/release/plans --plan-vectors $(VECTORS)/worst_open.jsonl crates/plans/stdin crates/plans/stdout
	@for t in examples/*.table; do compare/target/release/list < $$t > $${t%.table}.listing; compare/target/release/tick < $$t > $${t%.table}.tick; compare/target/release/first_tick < $$t > $${t%.table}.first_tick; done
	@table=$$(mktemp); for t in examples/*.strl; do compare/target/release/translate < $$t > $$table; compare/target/release/list < $$table > $$t.listing; compare/target/release/tick < $$table > $$t.tick; compare/target/release/first_tick < $$table > $$t.first_tick; done; rm $$table
	@git diff --stat -- crates examples
