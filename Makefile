.PHONY: test demo programs lib bench fuzz

SHELL = /bin/bash
.SHELLFLAGS = -o pipefail -c

COMPARE = tests/compare/cargo.sh run

# The gate: every proof, every must-fail edit, every program and test.
test: needs-rt needs-gcc needs-cargo needs-python3
	@bash .ci/run

# The desk program on example J.
demo: needs-rt
	@echo 'Proves the desk program and every crate below it, then runs it on example J (example/commands).'
	@echo 'From nothing it takes minutes; what is proved already is not proved again.'
	@bash .ci/build desk
	@echo 'desk < commands:'
	@cd example && ../target/bin/desk < commands

# The programs, proved and run on example J: target/bin/desk, gtfs_import and gtfs_export.
programs: needs-rt
	@bash .ci/build desk gtfs_import gtfs_export

# The static library for C: target/staticlib/libpanel.a, with include/ttg.h.
lib: needs-rt
	@bash .ci/build panel

# Microseconds beside the independent Rust implementation, with one timetable and with sixteen in turn, and with all departures in
# one minute; instructions too where valgrind is installed, drawn into target/instructions.svg.
bench: needs-cargo lib
	$(COMPARE) --bin bench
	@if command -v valgrind >/dev/null; then \
	    tests/compare/counts.sh day 3 | $(COMPARE) --bin figures -- target/instructions.svg && \
	    echo 'all departures in one minute, 200 notices:' && \
	    tests/compare/counts.sh dense 200 2000 | $(COMPARE) --bin figures; \
	else echo 'no valgrind, so no instruction counts'; fi

# A long comparison with the independent Rust implementations: make fuzz SEED=7 ROUNDS=20000
SEED ?= 1
ROUNDS ?= 20000
fuzz: needs-cargo lib
	$(COMPARE) --bin compare -- $(SEED) $(ROUNDS)

needs-%:
	@command -v $* >/dev/null || { echo 'make needs $*, which is not installed' >&2; exit 1; }
