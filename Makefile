# make            proves and builds the first program of programs.txt, build/svndumpfilter
# make PROGRAM    the same of any program, named by what follows svndump in its name, as make survey
# make test       proves what is not proved yet, builds all programs, runs the tests of every crate, and then the suites of
#                 tests/. After rt ci, which proves every crate from scratch and runs its tests, PROVED=ci make test takes the
#                 programs from there, and runs the suites and the mutants
# make suites     runs the suites on the built programs
# make mutants    tries the mutants, and plants mistakes for the checks of tests/
# make check CRATE=NAME
#                 checks a crate, reusing what was proved before
# make case CASE=NAME
#                 runs a case, with each program that it is for
# make bench      measures the programs on made dumps, and the filter on one thread, md5sum, sha1sum, cat and, if it is
#                 installed, Subversion's own svndumpfilter
# make soak       runs the filter ten thousand times on random dumps with random plans, and the filter on one thread
# make install    installs all programs, their manual pages and documents under $(DESTDIR)$(PREFIX), the filter by the name
#                 $(NAME), the survey by a name like it, and svndumpcut by its own; FORCE=1 overwrites files that were not
#                 installed from here
# make uninstall  removes what was so installed, and nothing else
# make deb        makes a Debian package of the same, build/svndumpfilter-proved_VERSION_ARCHITECTURE.deb
# make clean      removes build/; what the checks keep in crates/*/out stays
# make help       prints this

PREFIX ?= /usr/local
DESTDIR ?=
NAME ?= svndumpfilter-proved
FORCE ?=
CRATE ?=
CASE ?=

PROGRAMS := $(shell sed -n 's/^\([a-z][^ ]*\) .*/\1/p' programs.txt)
WORDS := $(PROGRAMS:svndump%=%)
BUILT := $(PROGRAMS:%=build/%)
PLAIN := build/run_plain
INSTALL := PREFIX="$(PREFIX)" DESTDIR="$(DESTDIR)" NAME="$(NAME)" FORCE="$(FORCE)" tools/install.sh
SOURCES := $(shell tools/list_sources.sh)
# the suites that take the longest come first
SUITES := $(addprefix suite-,fault_injection check_loaded_trees hostile_input run_cases compare_with_subversion \
	check_install check_merges check_examples check_scripts check_trusted check_names fit)
MUTANTS := $(addprefix suite-,mutants check_the_checks)
# each suite works in directories of its own, so they run in parallel; the output of one is printed whole
PARALLEL := $(MAKE) --no-print-directory --jobs=$(shell nproc) --output-sync=target --keep-going
# the programs that a case is for
OF_CASE := $(strip $(foreach it,$(if $(CASE),$(WORDS)),$(if $(wildcard tests/cases/*/$(CASE)/$(it).status),build/svndump$(it))))
ifeq ($(PROVED),ci)
BUILD := tools/build.py --proved
else
BUILD := tools/build.py
endif

.PHONY: all help toolchain $(WORDS) programs test suites mutants $(SUITES) $(MUTANTS) check case bench soak install uninstall deb clean
.DELETE_ON_ERROR:

all: $(firstword $(BUILT))

help:
	@sed -n '/^#/!q; s/^# //p' Makefile

toolchain:
	$(if $(shell command -v rt),@:,$(error the Rattle toolchain (rt) is not on the PATH))

$(WORDS): %: build/svndump%

# a build waits for another one, and takes what that one proved
$(BUILT): build/%: $(SOURCES) | toolchain
	@echo "make: proving and building $@"
	@$(BUILD) $*
	@echo "make: $@ is built"

# all that are not current in one go, since a build from scratch keeps little for the next one
programs: | toolchain
	@tools/build.py --old $(PROGRAMS)

ifeq ($(PROVED),ci)
test: | toolchain
	@echo "make: taking all programs from rt ci, and running the suites and the mutants"
	@$(BUILD) $(PROGRAMS)
	+@$(PARALLEL) $(MUTANTS) $(SUITES)
else
# in one go, so that each crate is proved once and its tests after it, and crates that do not depend on each other in parallel
test: | toolchain
	@echo "make: proving and building what is not current of all programs, and proving and running the tests of every crate"
	@$(BUILD) --old --tests $(PROGRAMS)
	@$(MAKE) --no-print-directory suites
endif

suites: programs
	@echo "make: running the suites of tests/"
	+@$(PARALLEL) $(SUITES)

mutants: | toolchain
	+@$(PARALLEL) $(MUTANTS)

suite-fit:
	tests/mutants.py --fit

# a suite that calls make itself takes none of this make's jobs
$(filter-out suite-fit,$(SUITES)) $(MUTANTS): suite-%:
	@echo tests/$*.py
	@env -u MAKEFLAGS -u MFLAGS tests/$*.py

check: | toolchain
	$(if $(wildcard crates/$(CRATE)/src),,$(error make check wants CRATE=NAME, a directory of crates/))
	@tools/build.py --check $(CRATE)

case: $(OF_CASE)
	$(if $(OF_CASE),,$(error make case wants CASE=NAME, a directory tests/cases/TOPIC/NAME))
	tests/run_cases.py $(CASE)

# the same filter on one thread, over the same crates
$(PLAIN): build/svndumpfilter bench/build_plain.py bench/run_plain.rt.in
	@echo "make: building $@"
	@bench/build_plain.py

bench: programs $(PLAIN)
	bench/bench.py

soak: build/svndumpfilter $(PLAIN)
	bench/soak.py

install: programs
	@$(INSTALL) install

uninstall:
	@$(INSTALL) uninstall

deb: programs
	tools/make_deb.sh

clean:
	@echo "make: removing build/"
	rm -rf build
