# The commands of this repository; `make help` describes them. Tests are also targets, as `make tests/programs/lines`,
# and run over the builds that are there.
SHELL = /bin/bash
SYMBOL = ?x@ns@@3HA
commands = help try check prove install dist bench measure

# Tests run in parallel, as many as there are processors, at most four. The output of one is kept together. After a
# failure no further one begins.
ifeq ($(filter-out check,$(filter $(commands),$(or $(MAKECMDGOALS),help))),)
MAKEFLAGS += --jobs=$(shell nproc | awk '{ print ($$1 < 4 ? $$1 : 4) }') --output-sync=target --no-print-directory
endif
job = @MAKEFLAGS= bash tools/lib/job

# What needs no proof: first what takes seconds, then the longest first.
of_seconds = $(addprefix tests/repository/,layout shellcheck man completions format)
of_sources = tests/library/allocation-failures tests/repository/edits tests/library/memory tests/documents/examples
of_sources += tests/library/requests tests/library/misuse
of_crates = calls msvc_bench undname msvcfilt msvc_workloads

# What needs the builds of rt ci and of tools/archive, and the packages in OUT; the longest first.
of_packages = tests/portable/test tests/windows/wine tests/debian/test tests/rust/test tests/static/test
of_packages += tests/tarball/test tests/wheel/test tests/windows/test tests/module/npm tests/dask/test
of_packages += tests/documents/test tests/documents/packages
of_builds = tests/c/test tests/without-malloc/test tests/module/test tests/programs/filter tests/library/within
of_builds += tests/repository/interrupts tests/library/hostile tests/programs/lines tests/repository/axioms

tests = $(of_seconds) $(of_sources) $(of_crates) $(of_packages) $(of_builds) tests/library/speed tests/page/test
.PHONY: $(commands) $(tests) archive built tests/repository/packages
.DELETE_ON_ERROR:

help: ## prints this list
	@sed -nE 's/^([a-z]+):.*## /make \1\t/p' Makefile | expand -t 16
try: ## demangles a symbol by undname in a minute, without a proof; SYMBOL= is another than ?x@ns@@3HA
	@cd crates/undname && rt try -- '$(value SYMBOL)'
check: $(of_seconds) $(of_sources) $(of_crates) ## runs all tests that need no proof, in some minutes
prove: ## runs the gate: proves, builds and tests everything, in 100 minutes
	@bash .ci/run
install: ## installs programs and libraries into PREFIX=, and proves what isn't built
	@bash tools/install $(PREFIX)
dist: ## makes the packages of a release in the new folder OUT=, of what `make prove` has built
	@bash tools/package $(OUT)
bench: ## counts the instructions of the workloads, and compares them with the stored ones
	@bash tests/library/speed
measure: ## measures all times, for docs/speed.txt; nothing else may run
	@bash measure/all > docs/speed.new && mv docs/speed.new docs/speed.txt
	@python3 -B measure/plot < docs/speed.txt > docs/speed.svg

$(of_sources) $(of_crates): | $(of_seconds)
$(of_seconds) $(of_sources) $(of_builds) tests/page/test:
	$(job) $@ bash $@
calls:
	$(job) $@ env -C crates/msvc_bench rt try --test
$(filter-out calls,$(of_crates)):
	$(job) $@ bash tests/programs/unproved $@
# This test counts in parallel itself, within the same number.
tests/library/speed:
	+@bash tools/lib/job $@ bash $@
$(of_packages): $(OUT)/SHA256SUMS
	$(job) $@ bash $@ $(OUT)

# In the gate, .ci/run, which makes the packages twice.
built: $(of_packages) $(of_builds) tests/library/speed
archive:
	$(job) $@ bash tools/archive aarch64 wasm64
tests/repository/packages: $(OUT)/SHA256SUMS
$(OUT)/SHA256SUMS:
	$(job) tests/repository/packages bash tests/repository/packages $(or $(OUT),$(error OUT= is no folder))
