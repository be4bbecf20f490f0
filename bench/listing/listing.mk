# The listing's speed: see bench/listing/run.py.
.PHONY: bench-listing

bench-listing:
	@mkdir -p out/listing
	@sh tests/listing/build.sh out/listing/oracle
	@tests/program nvxs_list
	@python3 bench/listing/run.py 256
