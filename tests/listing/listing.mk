# The listing's tests over the Rust reference: see tests/listing/run.sh and large.py.
CAPTURES ?= 10000
LISTING_SEED ?= 1

.PHONY: listing-differential listing-large

# Holds nvxs_list to a listing over the Rust parser, on CAPTURES captures.
listing-differential:
	@sh tests/listing/run.sh $(CAPTURES) $(LISTING_SEED)

# 2 GiB through a pipe, in constant memory.
listing-large:
	@mkdir -p out/listing
	@sh tests/listing/build.sh out/listing/oracle
	@tests/program nvxs_list
	@python3 tests/listing/large.py 2147483648 4096
