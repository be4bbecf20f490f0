# The benchmark against the Rust reference, and the listing's speed: see docs/SPEED.md.
.PHONY: bench

bench: rt-present
	@sh bench/run.sh
	@$(MAKE) bench-listing
