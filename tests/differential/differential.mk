# The differential harness: see tests/differential/README.md.
CALLS ?= 1000000
SEED ?= 1
# The layers of the port whose calls are made: the list stands in tests/differential/layers.
LAYERS ?= $(shell cat tests/differential/layers)

.PHONY: differential replay-list slips

# Holds the port to the Rust reference, on CALLS calls.
differential:
	@sh tests/differential/run.sh $(CALLS) $(SEED) "$(LAYERS)"

# Makes the fixed list of calls that replay_run is checked on, and the reference's answers.
replay-list:
	@sh tests/differential/replay_list.sh "$(LAYERS)"

# Plants slips in the compiled copy of the reference: the harness must find every one.
slips:
	@sh tests/differential/slips.sh
