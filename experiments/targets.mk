# What stands beside the proved crates: pictures, pages, sweeps, a check against ns-2. It is the same in the repository and
# in what `make dist` packs. All of it needs the packages in experiments/packages.txt, and Debian's own Python.
PYTHON ?= /usr/bin/python3
SRM_LAB ?= $(PROGRAM)
# a refusal is explained, unless ARGUMENTS say so themselves: an option may be given once
EXPLAIN = $(if $(filter --explain,$(ARGUMENTS)),,--explain)

# a line for each target with what stands after its ##, wrapped at 100 columns
HELP = sed -n 's/^\([a-z0-9-]*\):[^\#]*\#\# \(.*\)/\1\t\2/p' $(MAKEFILE_LIST) | awk -F '\t' '{ \
	line = sprintf("make %-20s", $$1); count = split($$2, words, " "); \
	for (at = 1; at <= count; at++) { \
		if (length(line) + 1 + length(words[at]) > 100) { print line; line = sprintf("%25s", "") } \
		line = line " " words[at] } \
	print line }'

.PHONY: experiments-packages check-tutorial

experiments-packages: ## installs the Debian packages that these targets need (as root, after apt-get update)
	apt-get install -y --no-install-recommends $$(cat experiments/packages.txt)

check-tutorial: $(SRM_LAB) ## runs each command of the tutorial and the study, and compares what it writes with the page
	$(PYTHON) experiments/check_tutorial.py $(SRM_LAB) docs/TUTORIAL.md docs/STUDY.md

# the seed in ARGUMENTS: by it a picture knows what is lost at random
SEED_GIVEN = $(patsubst --seed=%,--seed %,$(filter --seed=%,$(subst --seed ,--seed=,$(ARGUMENTS))))

.PHONY: picture
picture: $(SRM_LAB) ## draws a run: make picture SCENARIO=examples/star-loss-at-one-member.toml ARGUMENTS="--seed 2" PICTURE="--from 10 --to 40" > star.svg
	@trace=$$(mktemp) && trap 'rm -f "$$trace"' EXIT && $(SRM_LAB) $(EXPLAIN) $(ARGUMENTS) < $(SCENARIO) > "$$trace" && \
		PYTHONPATH=python/src $(PYTHON) -m srm_lab.picture $(SCENARIO) "$$trace" $(SEED_GIVEN) $(PICTURE)

.PHONY: page pages
page: $(SRM_LAB) ## writes a page that plays a run: make page SCENARIO=examples/star-loss-at-one-member.toml > star.html
	@SRM_LAB=$(abspath $(SRM_LAB)) PYTHONPATH=python/src $(PYTHON) -m srm_lab page $(SCENARIO) $(ARGUMENTS)

pages: $(SRM_LAB) ## writes such a page for each file of examples/ to out/pages/
	@mkdir -p out/pages
	@for scenario in examples/*.toml; do \
		$(MAKE) --no-print-directory page SCENARIO=$$scenario > out/pages/$$(basename $$scenario .toml).html || exit 1; done
	@echo out/pages

CONFIG ?= experiments/config.yaml
JOBS ?= $(shell nproc)
# a name is taken from where make was called, and where there is no such file, from experiments/
CONFIG_FILE = $(firstword $(wildcard $(PWD)/$(CONFIG) $(abspath $(CONFIG)) $(abspath experiments/$(CONFIG))) $(CONFIG))
# it runs in the folder of its configuration, in which that names files; only one sweep at a time into one folder of
# results: the lock is the process's, so that a killed sweep leaves none behind, and no sweep outlives make
UNDER = $(PYTHON) $(abspath experiments/under_make.py) $$PPID
SNAKEMAKE = cd $(dir $(CONFIG_FILE)) && export PYTHONPATH=$(abspath python/src) SETUPTOOLS_USE_DISTUTILS=stdlib && \
	results=$$($(PYTHON) $(abspath experiments/check_config.py) $(CONFIG_FILE)) && mkdir -p "$$results" && \
	flock --verbose --nonblock --conflict-exit-code 3 "$$results/.lock" $(UNDER) \
	$(PYTHON) $(abspath experiments/snakemake_alone.py) --snakefile $(abspath experiments/Snakefile) --scheduler greedy \
	--force-use-threads --nolock --rerun-incomplete --keep-going --show-failed-logs --configfile $(CONFIG_FILE) \
	--config program=$(abspath $(SRM_LAB))
REPORT = && realpath "$$results/report.html"

.PHONY: experiments experiments-slurm
experiments: $(SRM_LAB) ## makes the sweeps of experiments/config.yaml or CONFIG=.., their figures and report; keeps what is there
	$(SNAKEMAKE) --cores $(JOBS) $(REPORT)

# the directory has to be one that all nodes share; a job is over when Slurm says so
experiments-slurm: CORES ?= 4
experiments-slurm: UNDER = $(PYTHON) $(abspath experiments/slurm/sweep.py) $$PPID "$$results"
experiments-slurm: $(SRM_LAB) ## the same by Slurm: make experiments-slurm JOBS=2 CORES=2 SBATCH="--partition=short --time=30"
	@command -v sbatch > /dev/null || { echo "there is no Slurm here: no sbatch is on the path" >&2; exit 1; }
	$(SNAKEMAKE) --jobs $(JOBS) --cores $(CORES) --latency-wait 60 --jobscript $(abspath experiments/slurm/jobscript.sh) \
		--cluster "sbatch --parsable --cpus-per-task={threads} --output=.snakemake/slurm-%j.log $(SBATCH) --job-name=\$$SWEEP" \
		--cluster-status "$(PYTHON) -IS $(abspath experiments/slurm/status.py)" --cluster-cancel true $(REPORT)

.PHONY: random-loss
random-loss: $(SRM_LAB) ## data alone lost at random, and all packets: experiments/results/random_loss.svg
	mkdir -p experiments/results
	cd experiments && SRM_LAB=$(abspath $(SRM_LAB)) PYTHONPATH=$(abspath python/src) $(PYTHON) random_loss.py results/random_loss.svg

.PHONY: compare-ns2
compare-ns2: $(SRM_LAB) ## runs 320 scenarios in srm_lab and in ns-2, and explains each difference
	cd experiments && PYTHONPATH=$(abspath python/src) $(PYTHON) -u compare_ns2.py $(abspath $(SRM_LAB)) --table results/compare-ns2.csv
