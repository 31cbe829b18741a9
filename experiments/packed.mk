# The targets of what `make dist` packs, which has the built program and no sources; there it is called Makefile.
PROGRAM := bin/srm_lab
SCENARIO ?= examples/two-nodes.toml
ARGUMENTS ?=

.PHONY: help run

help: ## lists these targets
	@$(HELP)

run: ## prints the trace of a scenario, or what ARGUMENTS ask for: make run SCENARIO=examples/two-nodes.toml ARGUMENTS="--show links"
	@$(PROGRAM) $(EXPLAIN) $(ARGUMENTS) < $(SCENARIO)

include experiments/targets.mk
