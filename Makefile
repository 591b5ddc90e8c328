# `make run` reports on the example sheet, or on a sheet of your own: make run SHEET=path/to/plan.bin
SHEET ?= crates/sheet_report/data/plan.bin

.PHONY: run test bench rejected c-example format

run:
	@rm -rf target/run && mkdir -p target/run && cp "$(SHEET)" target/run/plan.bin
	@(cd crates/sheet_report && rt run) > target/build.log 2>&1 || { cat target/build.log; exit 1; }
	@cd target/run && ../../crates/sheet_report/out/sheet_report

test:
	rt ci

# Microseconds of the next entry, by each book's own way and entry by entry.
bench:
	@mkdir -p target
	@(cd crates/book_bench && rt run) > target/build.log 2>&1 || { cat target/build.log; exit 1; }
	@crates/book_bench/out/book_bench

# What the compiler refuses of tokens, before anything is proved.
rejected:
	@tools/rejected.sh

c-example:
	@examples/c/run.sh

format:
	@for crate in crates/*; do (cd $$crate && rt fmt) || exit 1; done
