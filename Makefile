# The commands of README.md. The gate, .ci/run, calls `make test`.

.PHONY: run test bench tools

# The sample that `make run` compiles, and the programs that show it.
SAMPLE := examples/p1.circuit
PROGRAMS := show list compile

# What both commands need. A missing tool is named in one line, before anything is done.
FROM_rt := it comes with the Rattle kit
FROM_cargo := it comes with Rust
$(foreach tool,rt cargo,$(if $(shell command -v $(tool) 2>/dev/null),,\
  $(error $(tool) is not on the PATH: $(FROM_$(tool)))))

run:
	@echo "Proving $(PROGRAMS) and what they rest on (minutes the first time) ..." >&2
	@tests/build $(PROGRAMS)
	@echo "$(SAMPLE):"
	@target/bin/show <$(SAMPLE)
	@echo "What greedy chooses:"
	@target/bin/list <$(SAMPLE)
	@echo "Compiled:"
	@target/bin/compile $(SAMPLE) target/run.compiled
	@target/bin/show <target/run.compiled

test:
	@tests/run

# Measures, and writes the figures of docs/PERFORMANCE.md.
bench:
	@rust/bench/measure

# Does nothing but look for the tools, as every target does.
tools: ;
