# `make help` says what there is to make.
.PHONY: help run test tool dist robust bench clean FORCE

# It would lead a script's cd elsewhere.
unexport CDPATH

archive := target/staticlib/libsleep_plan.a
CC := gcc
STRICT := -std=c99 -O2 -Wall -Wextra -pedantic -Werror

help:
	@echo 'make run      shows the product at work on a worked list'
	@echo 'make test     passes all tests; installs what they need, and says so'
	@echo 'make tool     builds target/jobs, which turns job lists as text into list bytes and pictures (docs/TOOL.md)'
	@echo 'make dist     packs the part for buyers, for each processor, to target/dist'
	@echo 'make robust   tries a million lists from outside; SEED, COUNT and FIRST can be set'
	@echo 'make bench    measures'
	@echo 'make clean    removes target/ and crates/*/out, and so all that was built and proved here'
	@echo 'All but make test say what is missing and install nothing.'

run:
	@tests/run_worked_list

tool: target/jobs
	@:

target/jobs: $(wildcard tools/jobs/*) include/sleep_plan.h $(archive)
	@tests/needs $(CC)
	@$(CC) $(STRICT) -Iinclude tools/jobs/*.c $(archive) -o $@

# It is built anew only if it is not current, which the script knows.
target/staticlib/lib%.a: FORCE
	@tools/staticlib $*

test:
	@tests/all

dist:
	@dist/make

bench:
	@tests/bench/run

robust:
	@tests/host/entry/robust

clean:
	@rm -rf target crates/*/out
