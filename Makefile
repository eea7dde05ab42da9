# The one door. `make test` is all tests, `make demo` the example board; `make compare` asks the Rust at length, `make soak` the
# C interface with bad input, `make bench` measures, `make more-edits` tries the edits beyond the gate's.
.PHONY: test check fmt edits-check more-edits outcome-check

# The proofs come first, since what follows links the proved library; rt's count of them is the last line.
test: oracle-check edits-check outcome-check
	@mkdir -p build
	@rt ci >build/rt.log 2>&1; status=$$?; cat build/rt.log; exit $$status
	@tools/edits none-bad build/rt.log
	@$(MAKE) --no-print-directory oracle-test replay-check compare-short host-test soak-short
	@tail -n 1 build/rt.log

# Every public function has a law that its promise leaves one outcome; the prover checks the laws, this that none is missing.
outcome-check:
	crates/outcome/none-missing

# Proves what has changed, with no must-fail edits: the loop while working. In a crate's folder `rt check` does so for it and what it needs.
check:
	rt all check

# Lays out every crate's files; `rt ci` refuses one that is not.
fmt:
	@for crate in crates/*/; do (cd $$crate && rt fmt) || exit 1; done

# What the proved libraries are made of: they are linked again only where one of these has changed.
SOURCES := crates.txt $(shell find crates -path '*/out' -prune -o \( -name '*.rt' -o -name '*.antt' \) -print)

# Each edit says on which input it is wrong and still fits the code, and docs/PROMISES.md names none that is not there. Nothing is proved.
edits-check:
	tools/edits check

# The edits of crates/NAME/must-fail-more, by the gate's rules. `tools/edits try all CRATE` tries those of one crate.
more-edits:
	tools/edits try more

include oracle/oracle.mk
include host/host.mk
