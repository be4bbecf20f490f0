# make test: every check of the repository; its last line is 'N passed, M failed'.
# make run:  prove and build the link listing, and list a sample; CAPTURE=file lists any file.
# make bench: time the port against the Rust reference (docs/SPEED.md).
# make rooms: draw docs/rooms.svg anew from crates.txt.
.DEFAULT_GOAL := test
.PHONY: test run rooms rt-present differential-where-present
MAKEFLAGS += --no-print-directory

test: rt-present
	@tests/ci

rooms:
	@docs/draw-rooms > docs/rooms.svg

CAPTURE ?= samples/reattachment.nvxs

run: rt-present
	@echo 'proving and building nvxs_list: some minutes the first time' >&2
	@tests/program nvxs_list
	@crates/nvxs_list/out/nvxs_list < $(CAPTURE)

rt-present:
	@command -v rt >/dev/null || { echo 'rt, the command of the Rattle kit, is not on the PATH' >&2; exit 1; }

# The differential test compares with the Rust, whose source stands beside the repository.
REFERENCE := ../shared/docs/src

# The programs are those that `rt ci` has built.
differential-where-present:
ifeq ($(wildcard tests/differential/.),)
	@echo 'differential: NOT RUN: there is no tests/differential'
else ifeq ($(wildcard $(REFERENCE)/.),)
	@echo 'differential: NOT RUN: there is no $(REFERENCE)'
else
	@$(MAKE) differential CALLS=200000 SEED=1 PROGRAM=crates/replay_run/out/replay_run
	@$(MAKE) listing-differential CAPTURES=10000 LISTING_SEED=1 PROGRAM=crates/nvxs_list/out/nvxs_list
	@$(MAKE) slips
endif

# Gives the targets differential, slips and replay-list.
-include tests/differential/differential.mk
# Gives the targets listing-differential and listing-large.
-include tests/listing/listing.mk
# Gives the target bench.
-include bench/bench.mk
# Gives the target bench-listing.
-include bench/listing/listing.mk
