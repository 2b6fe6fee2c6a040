# make bell   compiles a Bell pair, printing the QIR, by a build that is checked as it runs and not proved: about a minute
# make build  proves the program and all below it, and builds it at bin/qasm_qir: about an hour on a new machine
# make test   runs the gate: all proofs, must-fail edits, tests and programs

.PHONY: bell build test

bell:
	@cd crates/qasm_qir && rt try -- compile < ../../examples/bell_pair.qasm
	@echo "This build was checked as it ran, and is not proved; make build proves it." >&2

# `rt run` proves the program and everything below it, and builds it only then.
build:
	@cd crates/qasm_qir && rt run -- compile < ../../examples/bell_pair.qasm > /dev/null
	@mkdir -p bin && cp crates/qasm_qir/out/qasm_qir bin/qasm_qir

test:
	@bash .ci/run
