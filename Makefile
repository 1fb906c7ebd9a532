# `make` says what there is; `make test` is the gate.
.DEFAULT_GOAL := help
.NOTPARALLEL:
.PHONY: help setup test check run run-c dist dist-test install uninstall command-test stack bench reference examples cases \
	cross-check picture format clean

PREFIX = /usr/local
DESTDIR =
CASES = 2000

# What a target needs is looked for before anything is proved.
need = @packaging/need.sh $@

# The static library and the program, proved and built.
library = cd crates/exports_c && rt lib
program = cd crates/bound && rt run <stdin >/dev/null
archive = crates/exports_c/out/libexports_c.a

help:
	@cat packaging/targets.txt

setup:
	packaging/setup.sh

test:
	$(need) rt
	bash .ci/run

check:
	$(need) rt
	rt all check

dist:
	$(need) rt cc python3
	$(library)
	$(program)
	mkdir -p target
	packaging/dist.sh dist

run: dist
	dist/bin/pumdalin examples/listings/firmware/dispense.listing

run-c: dist
	packaging/run-c.sh dist

install:
	packaging/install.sh install dist "$(DESTDIR)$(PREFIX)"

uninstall:
	packaging/install.sh uninstall "$(DESTDIR)$(PREFIX)"

dist-test:
	$(need) rt cc c++ cmake objdump pkg-config python3 rustc valgrind
	$(MAKE) dist
	packaging/test.sh dist

command-test: dist
	PYTHONDONTWRITEBYTECODE=1 python3 -m unittest discover -s command/tests -t command

stack:
	$(need) rt objdump python3
	$(library)
	python3 packaging/stack.py $(archive) include/pumdalin.h

bench:
	$(need) rt cc rustc valgrind
	$(library)
	mkdir -p target
	rustc --edition 2021 -C opt-level=3 -C codegen-units=1 -C panic=abort bench/main.rs \
		-L $(dir $(archive)) -l static=exports_c -o target/bench
	target/bench crates/vectors/data/figures

reference:
	$(need) python3
	python3 -m unittest discover -s reference -p 'test_*.py'

examples:
	$(need) python3
	python3 reference/examples.py --check crates

cases:
	$(need) python3
	python3 reference/sheet_cases.py crates/vectors/data/sheets --check
	python3 reference/loop_cases.py crates/vectors/data/loops --check
	python3 reference/figure_cases.py crates/vectors/data/figures --check
	python3 reference/stage_cases.py crates/vectors/data/stages --check
	python3 reference/text_cases.py crates/vectors/data/texts --check
	python3 reference/reason_cases.py crates/vectors/data/reasons --check
	python3 reference/converter_cases.py crates/vectors/data/converters --check
	python3 reference/range_cases.py crates/range_vectors/data/ranges --check

cross-check:
	$(need) rt cc python3
	$(library)
	$(program)
	mkdir -p target
	cc -std=c99 -Wall -Wextra -O2 -Iinclude reference/answers.c $(archive) -o target/answers
	python3 reference/agreement.py target/answers --program crates/bound/out/bound --listings examples/listings \
		--cases $(CASES) $(if $(SEED),--seed $(SEED))

picture:
	$(need) python3
	python3 reference/picture.py docs/figures.svg

format:
	$(need) rt
	for crate in crates/*/; do (cd "$$crate" && rt fmt) || exit 1; done

clean:
	rm -rf target dist crates/*/out
	find command reference -name __pycache__ -type d -prune -exec rm -rf {} +
