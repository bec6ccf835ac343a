# make run: prove and build the program, and run it on the example.
# make test: the gate; its last line is 'N passed, 0 failed'.

EXAMPLE = examples/distance-to-go

.PHONY: run test

run:
	@mkdir -p target
	@echo "proving and building the monitor (some minutes the first time)"
	@cd crates/monitor && rt run < ../../$(EXAMPLE)/trial.txt 2> ../../target/build.log || { tail -n 40 ../../target/build.log; exit 1; }

# The example is what the gate runs the program on.
test:
	@cmp $(EXAMPLE)/trial.txt crates/monitor/stdin
	@cmp $(EXAMPLE)/transcript.txt crates/monitor/stdout
	@tools/gate
