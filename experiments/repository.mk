# What of the Python package and the experiments needs the repository: their tests, and what is packed and installed.
.PHONY: check-experiments test-package test-clean-root test-slurm

test-package: $(SRM_LAB) ## runs linter, type checker and tests of all Python, as far as Debian's packages for it are installed
	@SRM_LAB=$(abspath $(SRM_LAB)) python/tests/all.py

check-experiments: test-package check-tutorial ## the same, and then each command of the tutorial and the study

test-clean-root: $(SRM_LAB) ## as root, in minutes: installs wheel and Debian package in a root of Debian alone, and tests them
	cd python && SRM_LAB=$(abspath $(SRM_LAB)) $(PYTHON) -m pytest -q -rs --durations=0 -p no:cacheprovider -m clean_root

test-slurm: ## as root, in minutes: sets up a Slurm of one node, and makes sweeps there whose jobs, node and make end early
	cd python && $(PYTHON) -m pytest -q -rs --durations=0 -p no:cacheprovider -m one_node tests/test_one_node.py

# time and memory beside the plain program of bench/, which `make bench` builds too, and beside ns-2
PLAIN := out/baseline

$(PLAIN): $(wildcard bench/baseline/*.rs)
	@mkdir -p $(@D)
	rustc -O --edition 2021 -o $@ bench/baseline/main.rs

.PHONY: compare-sizes
compare-sizes: $(SRM_LAB) $(PLAIN) ## prints time and memory at four sizes, of the program, of a plain one and, if it is there, of ns-2
	cd experiments && PYTHONPATH=$(abspath python/src) $(PYTHON) -u compare_sizes.py $(abspath $(SRM_LAB)) --plain $(abspath $(PLAIN))

# ---- what a user without the toolchain gets --------------------------------------
SHARE = $(DESTDIR)$(PREFIX)/share
PACKED ?= out
# the program's own version; of a commit that is not tagged with it, with the commit's number
RELEASE = $(shell $(PROGRAM) --version 2> /dev/null | cut -d ' ' -f 2)
TAG = $(shell git describe --tags --exact-match 2> /dev/null)
VERSION ?= $(RELEASE)$(if $(TAG),,+$(shell git rev-parse --short HEAD))
DIST = srm_lab-$(VERSION)
TREE = $(PACKED)/$(DIST)
DIST_FILES = CHANGELOG.md CITATION.cff LICENSE-MIT LICENSE-APACHE NOTICES.md docs examples python experiments packaging
COMPLETED = srm_lab srm-scenarios
EPOCH = $(shell git log -1 --format=%ct)
# a Debian package names who made it, and a commit before a release is older than the release
MAINTAINER ?= $(shell git log -1 --format='%an <%ae>')
DEB_VERSION = $(subst +,~,$(VERSION))
# where the project is on the web, to which packages then link
HOMEPAGE ?=
# the oldest C library with all that the program asks of it: of every Linux with that one or a later one
GLIBC = $(shell objdump -T $(PROGRAM) | grep -o 'GLIBC_2\.[0-9]*' | sort -V | tail -n 1 | tr -dc '0-9.' | tr . _)
PLATFORM = manylinux_$(GLIBC)_$(shell uname -m)

.PHONY: install-shared packed-tree dist wheel deb

# `make install` puts the program in place, and with it these
install: install-shared

install-shared:
	install -D -m 644 -t $(SHARE)/man/man1 man/*.1
	install -D -m 644 -t $(SHARE)/man/man5 man/*.5
	for command in $(COMPLETED); do \
		install -D -m 644 completions/$$command.bash $(SHARE)/bash-completion/completions/$$command && \
		install -D -m 644 completions/_$$command $(SHARE)/zsh/site-functions/_$$command && \
		install -D -m 644 completions/$$command.fish $(SHARE)/fish/vendor_completions.d/$$command.fish || exit 1; done
	mkdir -p $(SHARE)/srm_lab $(SHARE)/doc/srm_lab
	$(or $(PROGRAM),bin/srm_lab) --rules | $(or $(PYTHON),/usr/bin/python3) packaging/scenario_schema.py > $(SHARE)/srm_lab/scenario.schema.json
	cp -r --no-preserve=mode README.md $(filter %.md %.cff LICENSE-% docs examples,$(DIST_FILES)) $(SHARE)/doc/srm_lab/

# the folder that is packed, and of which the wheel and the Debian package are made; its documents and package are the
# commit's, with a README and a Makefile of its own
packed-tree: $(PROGRAM)
	@test -z "$(TAG)" -o "$(TAG)" = "v$(RELEASE)" || \
		{ echo "this commit is tagged $(TAG), and the program says that it is $(RELEASE)" >&2; exit 1; }
	rm -rf $(TREE) && mkdir -p $(TREE)
	git archive HEAD $(DIST_FILES) man completions | tar -x -C $(TREE)
	mv $(TREE)/packaging/packed.md $(TREE)/README.md
	mv $(TREE)/experiments/packed.mk $(TREE)/Makefile
	install -D -m 755 $(PROGRAM) $(TREE)/bin/srm_lab && strip $(TREE)/bin/srm_lab
	cd $(TREE) && $(MAKE) --no-print-directory -f $(abspath experiments/repository.mk) install-shared PREFIX= DESTDIR=.
	rm -r $(addprefix $(TREE)/,man completions packaging python/tests experiments/repository.mk)

# the same commit and program give the same bytes
dist: packed-tree ## packs the program, and all that needs no sources, for machines without the toolchain: out/srm_lab-VERSION.tar.gz
	tar -C $(PACKED) --sort=name --owner=0 --group=0 --numeric-owner --mtime=@$(EPOCH) -cf - $(DIST) | gzip -n9 > $(TREE).tar.gz
	@echo $(TREE).tar.gz

wheel: packed-tree ## makes a wheel of the Python package, with program and documents; HOMEPAGE= is where it links to
	rm -rf $(PACKED)/wheel && cp -r $(TREE)/python $(PACKED)/wheel && cp -r $(TREE)/bin $(TREE)/share $(PACKED)/wheel/
	cp $(TREE)/LICENSE-* $(TREE)/NOTICES.md $(TREE)/README.md $(PACKED)/wheel/
	git show HEAD:packaging/wheel.toml | sed 's/@PLATFORM@/$(PLATFORM)/' >> $(PACKED)/wheel/pyproject.toml
	sed -i -e 's/^version = .*/version = "$(VERSION)"\nreadme = "README.md"/' \
		$(if $(HOMEPAGE),-e 's|^\[project.urls\]|&\nHomepage = "$(HOMEPAGE)"|') $(PACKED)/wheel/pyproject.toml
	SOURCE_DATE_EPOCH=$(EPOCH) $(PYTHON) -m pip --quiet --disable-pip-version-check wheel --no-deps --no-index \
		--no-build-isolation --wheel-dir $(PACKED) $(PACKED)/wheel
	@ls -t $(PACKED)/srm_lab-*.whl | head -n 1

deb: packed-tree ## makes a Debian package of the program and the Python package, linked as the wheel is
	rm -rf $(PACKED)/deb && mkdir -p $(PACKED)/deb && cp -r $(TREE) $(PACKED)/deb/srm-lab
	git archive HEAD packaging/debian | tar -x -C $(PACKED)/deb/srm-lab --strip-components=1
	cd $(PACKED)/deb/srm-lab/debian && sed -i -e 's/@MAINTAINER@/$(MAINTAINER)/' \
		$(if $(HOMEPAGE),-e 's|^Standards-Version|Homepage: $(HOMEPAGE)\n&|') control && printf '%s\n' \
		'srm-lab ($(DEB_VERSION)) unstable; urgency=medium' '' '  * What changed is in CHANGELOG.md.' '' \
		" -- $(MAINTAINER)  $$(LC_ALL=C date -R -u -d @$(EPOCH))" > changelog
	cd $(PACKED)/deb/srm-lab && SOURCE_DATE_EPOCH=$(EPOCH) dpkg-buildpackage --build=binary --no-sign > ../log 2>&1 || { cat ../log; exit 1; } >&2
	mv $(PACKED)/deb/*.deb $(PACKED)
	@ls -t $(PACKED)/srm-lab_*.deb | head -n 1

.PHONY: experiments-figures
SHOWN = $(shell grep -o 'figures/[a-z0-9_]*\.svg' docs/EXPERIMENTS.md)
experiments-figures: ## puts the figures of the last `make experiments`, with each CONFIG, where docs/EXPERIMENTS.md shows them
	install -D -m 644 -t docs/figures \
		$(foreach results,results results-sparse results-adaptive results-adaptive-ns2 results-local,$(wildcard $(SHOWN:%=experiments/$(results)/%)))
