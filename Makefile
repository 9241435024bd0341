# runtest, a proved runner for DejaGnu test suites.
RT ?= rt
PREFIX ?= /usr/local

PROGRAM = crates/runtest/out/runtest
# The proved program, or the quick one where there is none yet.
EITHER = RUNTEST=$$(RT="$(RT)" sh tools/program.sh) && export RUNTEST

.PHONY: all quick demo dev rows counts check times reckon wrong-bodies bench kills growths examples install clean

# Proves the program and all that it stands on, several crates side by side, and builds it: about an hour.
all: $(PROGRAM)

$(PROGRAM): crates.txt $(shell find crates -path '*/out' -prune -o -type f \( -name '*.rt' -o -name '*.antt' \) -print)
	RT="$(RT)" python3 tools/build.py runtest
	@test -x $(PROGRAM) && touch $(PROGRAM)

# Builds the program before any proof, with run-time checks in their place: out/quick/runtest, in minutes.
quick:
	RT="$(RT)" python3 tools/quick.py .

# Judges a session, and then a suite with children and by what these did.
demo:
	@$(EITHER) && "$$RUNTEST" --session < examples/first.session && sh examples/demo.sh

# Proves one crate over what earlier checks kept, and first what lies below it where nothing is kept: make dev C=dg_glob
dev:
	@test -f "crates/$(C)/src/lib.rt" -o -f "crates/$(C)/src/main.rt" || { echo "make dev C=NAME: which crate? $$(ls crates | tr '\n' ' ')"; exit 1; }
	cd crates/$(C) && $(RT) check

# Writes the session on which the gate runs the program, and its answers, anew from tests/tcl.
rows:
	sh tools/rows.sh

# Prints how large all this is.
counts:
	@python3 tools/counts.py

# The merge gate: every proof from nothing, wrong bodies, the program and its tests.
check:
	RT="$(RT)" RT_JOBS=$${RT_JOBS:-$$(sh tools/lanes.sh)} python3 tools/check.py

# The merge gate, and docs/TIMES.md: the processor seconds of each crate's proof, tests and wrong bodies.
times:
	RT="$(RT)" RT_JOBS=$${RT_JOBS:-$$(sh tools/lanes.sh)} python3 tools/times.py

# Reckons from docs/TIMES.md how long the gate takes by the clock.
reckon:
	@python3 tools/reckon.py

# Tries the wrong bodies that `rt ci` leaves out, each over its whole crate.
wrong-bodies:
	RT="$(RT)" sh tests/wrong-bodies/run.sh

# Times this program and its crates beside tclsh and Expect; all of these have to be on the path.
bench: $(PROGRAM)
	for it in bench/*/run.sh; do echo "== $$it"; sh $$it || exit 1; done

# Kills runs at 100 random moments: every file is whole after each, no child is left, and the next run works.
kills:
	@$(EITHER) && sh tests/kills/run.sh

# Counts the growths of evaluations, by valgrind.
growths: $(PROGRAM)
	python3 tests/growths/growths.py $(PROGRAM)

# Judges the example suites by their stored transcripts, and beside these with children: their reports are the stored ones.
# Then tries the programs of contrib, a suite on several hosts, and what a user sees of the program: words, faults, sessions,
# terminals, children. The gate does all this too.
examples:
	@$(EITHER) && python3 tools/tests.py "$$RUNTEST"

install: $(PROGRAM)
	install -d $(DESTDIR)$(PREFIX)/bin
	install -m 755 $(PROGRAM) $(DESTDIR)$(PREFIX)/bin/runtest
	install -m 755 contrib/runtest-* $(DESTDIR)$(PREFIX)/bin
	install -d $(DESTDIR)$(PREFIX)/share/runtest/runtestlib
	install -m 644 contrib/runtestlib/*.py $(DESTDIR)$(PREFIX)/share/runtest/runtestlib
	install -d $(DESTDIR)$(PREFIX)/share/man/man1
	install -m 644 runtest.1 $(DESTDIR)$(PREFIX)/share/man/man1/runtest.1
	install -d $(DESTDIR)$(PREFIX)/share/doc/runtest
	cp -R README.md LICENSE docs examples $(DESTDIR)$(PREFIX)/share/doc/runtest/

clean:
	rm -rf crates/*/out out
