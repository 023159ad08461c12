# make run                builds the program with no proof and every check at run time as out/unproved/cephmeta, and runs a first session
# make, make proved       proves every crate that the program stands on and builds it as ./cephmeta, where one of their files is newer
# make test               is the gate: every proof from nothing, the mutants, the tests and the programs, over the proved program
# make install            puts the proved program with its man page and completions below PREFIX, /usr/local if none is given; with
#                         PROGRAM=out/unproved/cephmeta the one of `make run`
# make units [NAME..]     runs the tests of these files of tests/units or of all
# make strength [CRATE..] tries the mutants that the gate leaves out, of these crates or of all
# make check CRATE [FN..] checks one crate, or these functions of it, over libraries that it makes where they aren't there (docs/CONTRIBUTING.md)

# no rule but those below: a search for others at each source takes longer than all else
MAKEFLAGS += --no-builtin-rules

# the words after these three are names, and no goals of their own
NAMED := units strength check
ifneq (,$(filter $(NAMED),$(firstword $(MAKECMDGOALS))))

NAMES := $(wordlist 2,$(words $(MAKECMDGOALS)),$(MAKECMDGOALS))
OTHERS := $(subst :,\:,$(filter-out $(NAMED),$(NAMES)))
.PHONY: $(NAMED) $(OTHERS)

units:
	@tests/units/run $(NAMES)

strength:
	@strength/run $(NAMES)

check:
	@building/check $(NAMES)

$(OTHERS):
	@:

else

.PHONY: all proved run install test

PREFIX ?= /usr/local
PROGRAM ?= cephmeta
UNPROVED := out/unproved/cephmeta

# what the program is made of; `out` has what the prover leaves
SOURCES := crates.txt HANDLES $(shell find crates -name out -prune -o -type f \( -name '*.rt' -o -name '*.antt' \) -print)

all proved: cephmeta

# the sum of the proved program, by which `make install` knows it
NOTE := mkdir -p out && sha256sum cephmeta > out/proved

cephmeta: $(SOURCES)
	@building/proved cephmeta
	@$(NOTE)

$(UNPROVED): $(SOURCES)
	@building/unproved crates/cephmeta $@

run: $(UNPROVED)
	@building/session $(UNPROVED) examples/first.script
	@echo '$(UNPROVED) is not proved; `make test` proves the same sources' >&2

install: $(PROGRAM)
	@install/put $(PROGRAM) $(DESTDIR)$(PREFIX)

# `rt ci` proves and builds the program; nothing is proved again for what follows it. A check gets the processors that no other task
# waits for: the chain of crates is long, so that is faster by the clock than one job each (docs/PROVING.md)
test:
	@building/gate
	@cp crates/cephmeta/out/cephmeta cephmeta
	@$(NOTE)
	@building/tests tests/claims/run tests/claims/names tests/claims/calls tests/claims/pages tests/claims/comments tests/units/run examples/check \
	    examples/library/run tests/install/run tests/building/run tests/contributing/run tests/rows/run tests/operation_table/run tests/many_names/run \
	    tests/random_runs/run tests/asked_runs/run tests/history/run tests/clients/run tests/answers/run tests/explain/run tests/refused_growths/run tests/serve/run \
	    tests/store_file/run tests/rados/run

endif
