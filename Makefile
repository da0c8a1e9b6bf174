# WORDS of the program, as make try WORDS="names my.dat".
WORDS =
# The toolchain's rt, which reads each library once where some kits read it once for each chain that leads to it.
RT = python3 $(CURDIR)/bench/kit.py

.PHONY: try run test cases rows growths edits wrong hostile accepted bench loops stack check fmt reference

# The first answer in a minute: builds acpicheck from its sources, without proofs, and runs it on the example, or on
# words and files of your own: make try WORDS="eval --plain 100 --method '\_SB_.PCI0._STA' my.dat".
try:
	@python3 bench/try.py $(WORDS)

# Builds acpicheck, proofs included, and evaluates the method of the stored run.
run:
	@cd crates/acpicheck && $(RT) run < stdin

# The crates whose must-fail edits the gate tries: all but the worlds of aml_plain_tests, which stand in tests alone.
EDITED = $(filter-out aml_plain_tests,$(notdir $(wildcard crates/*)))

# The gate: every crate proved from nothing; tests and programs run, then the built program over its stored cases and
# rows, and the must-fail edits, many in one check, and those of a small crate that try the script itself.
# Those of crates/*/further are tried where there is time, on two cores behind all others. Behind so many minutes no
# further check of edits is begun, but for a crate's first, which may begin half an hour later, of an evaluator's a
# quarter. The last line counts all.
MINUTES = 105
test:
	@python3 bench/edits.py clear
	@$(RT) ci | python3 bench/cases.py after | python3 bench/edits.py after $(MINUTES) $(EDITED)

# The built program over its stored cases and rows.
cases:
	@python3 bench/cases.py

# The built program over its rows alone.
rows:
	@python3 bench/rows.py

# Each growth of memory refused in turn, in the test programs and the built program that `make test` leaves.
growths:
	@python3 bench/growths.py

# The edits that must be refused: of every crate, or with CRATE=name of one, and with EDIT=name one of them.
edits:
	@python3 bench/edits.py $(CRATE) $(EDIT)

# Wrong bodies made at random, of which those are told that the contracts of CRATE let through; behind `make test`.
SEED = 1
wrong:
	@python3 bench/wrong.py $(CRATE) $(SEED)

# Every command over tables that are changed at random, by the program that `make test` leaves.
hostile:
	@python3 bench/hostile.py

# Bodies made at random, of which each that `verify` accepts is run over registers, by the program that `make test` leaves.
accepted:
	@python3 bench/accepted.py

# Three other readings of the rules, in Python, beside the program that `make test` leaves: a short run of each.
reference:
	@python3 bench/reference/run.py

# Loops timed beside ACPICA's acpiexec (apt-get install acpica-tools), by the program that `make run` builds.
bench:
	@python3 bench/speed.py

# Loops over single calls, two of them beside loops in C, and the verdicts on whole tables, by the program that `make test` leaves.
loops:
	@python3 bench/loops.py

# The least stack with which the deepest evaluation of each form ends, by the program that `make run` builds.
stack:
	@python3 bench/stack.py

# Every crate, over what earlier checks kept.
check:
	$(RT) all check

fmt:
	for crate in crates/*/; do (cd $$crate && rt fmt) || exit 1; done
