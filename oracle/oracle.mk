# The oracle: geometry-rs, unchanged, and what asks it. The root Makefile includes this file.
# Cargo works offline, with its files in oracle/target.

CARGO = cd oracle && cargo

.PHONY: oracle-check oracle-test compare compare-short replay-files replay-check

# the source of geometry-rs is the recorded one, byte for byte
oracle-check:
	cd oracle && sha256sum --check --strict SHA256SUMS

# the original's own tests, and those of what asks it
oracle-test: oracle-check
	$(CARGO) test --release --offline

PROBE = crates/probe/out/libprobe.a
$(PROBE): $(SOURCES)
	@echo "proving the functions under their C names for the comparison; the prover's own words go to build/probe.log"
	@host/prove-quietly probe
	@touch $(PROBE)

# the library beside the Rust, on every edge and millions of random inputs
compare: oracle-check $(PROBE) capi-library
	$(CARGO) run --release --offline -p compare

# the same in a few seconds
compare-short: oracle-check $(PROBE) capi-library
	$(CARGO) run --release --offline -p compare -- --short

# writes the questions and the oracle's answers that the crates replay and replay_rings are run on
replay-files: oracle-check
	$(CARGO) run --release --offline -p ask -- sample ../crates

# the files that are there are those that replay-files writes
replay-check: oracle-check
	$(CARGO) run --release --offline -p ask -- sample --check ../crates
