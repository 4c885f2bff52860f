# SPDX-License-Identifier: MIT
# make builds bin/bedtools, make example runs it, make test is the gate, make mutants tries further wrong bodies, and
# make definitions wrong definitions.
# make generated writes what is made of other files.
# make check-docs checks the docs, make check-program the program at its edges, make check-speed its instructions,
# make check-differences compares it with bedtools 2.30.0, make check-front runs pipelines through its front, make check-shards
# runs it in shards. make install PREFIX=.. NAME=.. copies the program, its front, their docs, manual pages and completions,
# make uninstall removes them, make dist packs them into a tarball, make deb into a Debian package, and make check-packages
# tries all of these.
PREFIX ?= /usr/local
# The name of the installed program: not `bedtools`, which it would hide. It comes from the command line of make alone, since
# others use a variable of this name.
NAME := dunekettle-bedtools
# Shells get these as they are, in variables.
export NAME PREFIX DESTDIR

# The processor to build for, where it isn't x86-64-v2: make CPU=x86-64-v3 builds bin/x86-64-v3/bedtools, which needs AVX2.
CPU ?=

# The version stands in CHANGELOG.md.
VERSION := $(shell sed -n 's/^## //p' CHANGELOG.md | head -n 1)
# A package of one commit is the same each time: its files have the date that SOURCE_DATE_EPOCH says, or else that of the
# commit, or without git of CHANGELOG.md. Who owns the folder is no matter: whoever runs make runs what is in it.
DATE := $(or $(SOURCE_DATE_EPOCH),$(shell git -c safe.directory='*' log -1 --format=%ct 2> /dev/null || stat -c %Y CHANGELOG.md))
DIST := dunekettle-$(VERSION)-$(or $(CPU),$(shell uname -m))
DEB = dunekettle-bedtools_$(VERSION)_$(or $(CPU),$(shell dpkg --print-architecture)).deb

# Runs the tests of a folder.
UNITTEST := python3 -m unittest discover -t .

PROGRAM := bin/$(if $(CPU),$(CPU)/)bedtools
# The program that decides who takes a call of the drop-in.
DROP_IN := bin/$(if $(CPU),$(CPU)/)drop-in
# What the prover and the compiler say.
LOG := bin/build.log
SOURCES := crates.txt $(shell find crates -name out -prune -o -type f \( -name '*.rt' -o -name '*.antt' \) -print)

# What is installed for people: not what was tried for speed, nor tables of all measurements.
DOCS := README.md CHANGELOG.md LICENSE $(wildcard docs/*.md docs/*.svg) bench/README.md $(wildcard bench/*.svg) \
	tests/differences/differences.tsv CITATION.cff SECURITY.md packaging/copyright packaging/sbom.spdx.json

.PHONY: all built example test mutants definitions check-docs check-program check-speed check-differences check-front check-shards \
	check-packages generated completions pictures install uninstall dist deb clean

all: $(PROGRAM) $(DROP_IN)

# A program has the version in a section of its own.
define finish
@printf 'Dunekettle %s\n' '$(VERSION)' > bin/version.txt
@! command -v objcopy > /dev/null || objcopy --add-section .dunekettle=bin/version.txt $(PROGRAM)
@echo "Built $(PROGRAM)."
endef

# The run builds what it runs, and merges nothing.
$(PROGRAM): $(SOURCES)
	$(kit)
	@mkdir -p $(@D)
	@echo "Proving what changed and building $@; the prover's output goes to $(LOG)."
	@cd crates/bedtools && rt run $(if $(CPU),--cpu $(CPU)) -- merge -i /dev/null -g /dev/null > ../../$(LOG) 2>&1 || \
	{ tail -n 20 ../../$(LOG); echo "Not built: see $(LOG)."; exit 1; }
	@cp crates/bedtools/out/bedtools $@
	$(finish)

# What proves and builds isn't a part of this repository.
define kit
@command -v rt > /dev/null || { \
	echo 'No rt on PATH: this needs the Rattle kit (rattle-kit-13f: prover, compiler, libraries), which is not a part of this repository.'; \
	echo 'Ask for it whoever gave you this, and put its folder bin on PATH: export PATH=/where/it/is/bin:$$PATH'; exit 1; }
endef

$(DROP_IN): $(SOURCES)
	$(kit)
	@mkdir -p $(@D)
	@echo "Proving what changed and building $@; the prover's output goes to $(LOG)."
	@cd crates/drop_in && rt run $(if $(CPU),--cpu $(CPU)) -- 1 > ../../$(LOG) 2>&1 || \
	{ tail -n 20 ../../$(LOG); echo "Not built: see $(LOG)."; exit 1; }
	@cp crates/drop_in/out/drop_in $@
	@echo "Built $@."

# Takes the programs that `rt ci` built.
built:
	@cp crates/bedtools/out/bedtools $(PROGRAM)
	@cp crates/drop_in/out/drop_in $(DROP_IN)
	$(finish)

example: $(PROGRAM)
	@examples/run.sh $(PROGRAM)

test:
	$(kit)
	tests/gate.sh

# The further wrong bodies, which the gate doesn't try: each must be refused too. They are tried in a
# copy, in the place of those of must-fail. `rt must-fail` leaves out what is built for tests alone: the copy has the
# slow plain programs, some of which are edited, in the program.
mutants:
	$(kit)
	copy=$$(mktemp -d) && git ls-files -z | xargs -0 cp --parents -t $$copy && cd $$copy && \
	sed -i '/^#\[cfg(test)\]$$/{N;s/.*\n\(mod plain;\)/\1/}' crates/*/src/lib.rt && \
	rm -rf crates/*/must-fail && \
	for mutants in crates/*/mutants; do mv $$mutants $$(dirname $$mutants)/must-fail; done && \
	rt must-fail; status=$$?; rm -rf $$copy; exit $$status

# Wrong definitions, each of which has to break a worked value; tests/definitions/definitions.txt gets what breaks.
definitions:
	$(kit)
	tests/definitions/definitions.py --write

# The shell examples of the pages and of tests/pages/cases write what is below them, the example on each crate's first page is its
# test, each link leads somewhere, each file that a tool writes is what it would write, each call that allocates has its test,
# wrong bodies and wrong definitions fit the code, and tables and charts of the bench are those of its results.
check-docs: $(PROGRAM)
	$(UNITTEST) -s tests/pages
	$(UNITTEST) -s tests/definitions
	bench/results.py

# Closed standard streams, full disks, directories: what no proof says of real files. Then memory that runs out, in small address
# spaces and with each growth refused, also in the tests of crates; large sizes; what is allocated over many records; random
# bytes; and the laws of docs/PIPES.md on random inputs.
check-program: $(PROGRAM)
	$(UNITTEST) -s tests/program

# The instructions a record, beside those in bench/instructions.txt.
check-speed: $(PROGRAM)
	bench/compare.py --check

# The rows of tests/differences/differences.tsv, the options of tools/options.tsv, and the scripts of recipes/, tried with the
# program and with the bedtools 2.30.0 on PATH.
check-differences: $(PROGRAM)
	$(UNITTEST) -s tests/differences
	$(UNITTEST) -s tests/recipes -p test_recipes.py

# The front and the drop-in: hostile cases, streams and the temporary folder, random command lines, what calls cost, and
# pipelines, unchanged, with the drop-in first on PATH.
check-front: $(PROGRAM) $(DROP_IN)
	! command -v shellcheck > /dev/null || \
	shellcheck -x front/bedtools front/dunekettle front/*.sh packaging/*.sh tests/packages/*.sh tests/drop_in/pipelines/*.sh recipes/*.sh shards/*.sh
	tests/drop_in/front_stub.py
	tests/drop_in/front_hostile.py
	tests/drop_in/front_streams.py
	tests/drop_in/front_random.py
	tests/drop_in/front_rules.py
	tests/drop_in/front_warnings.py
	tests/drop_in/front_costs.py
	tests/drop_in/front.py

# The recipes of docs/SHARDS.md, whose bytes have to be those of the whole.
check-shards: $(PROGRAM)
	$(UNITTEST) -s tests/recipes -p test_shards.py

# What make install, make dist and make deb make, tried in folders of their own.
check-packages: $(PROGRAM) $(DROP_IN)
	tests/packages/check.sh

# Help, completions, manual pages, and the parts of pages and scripts between marks. COMMANDS.md comes before the manual pages,
# which are made of it.
generated: pictures
	tools/options.py
	tools/completions.py
	tools/manuals.py
	tools/migrating.py
	tools/recipe_table.py
	tools/model.py
	tools/verdict.py

completions: generated

pictures:
	tools/pictures.py

# Whether make was called with -s.
is_silent = $(findstring s,$(filter-out -%,$(firstword $(MAKEFLAGS))))

# The manual pages and the completions get the program's name there.
install: $(PROGRAM) $(DROP_IN)
	packaging/install.sh "$$DESTDIR$$PREFIX" "$$PREFIX" "$$NAME" $(PROGRAM) $(DROP_IN) $(DOCS)
	$(if $(is_silent),,@[ -n "$$DESTDIR" ] || printf '%s\n' "Installed: $$PREFIX/bin/dunekettle" \
	"    export PATH=\"$$PREFIX/bin:\$$PATH\"" "The drop-in, for scripts that call bedtools:" \
	"    export PATH=\"$$PREFIX/lib/dunekettle/bin:\$$PATH\"")

uninstall:
	packaging/uninstall.sh "$$DESTDIR$$PREFIX" "$$NAME"

dist: $(PROGRAM) $(DROP_IN)
	rm -rf bin/$(DIST)
	$(MAKE) install DESTDIR="$(CURDIR)/bin/$(DIST)/" PREFIX=. NAME="$$NAME"
	packaging/dist.sh bin/$(DIST) $(DATE)

deb: $(PROGRAM) $(DROP_IN)
	rm -rf bin/deb
	$(MAKE) install DESTDIR="$(CURDIR)/bin/deb" PREFIX=/usr NAME=dunekettle-bedtools
	packaging/deb.sh bin/deb $(VERSION) $(DATE) bin/$(DEB)

clean:
	rm -rf bin crates/*/out
