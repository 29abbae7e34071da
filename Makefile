# `make help` lists what there is.

PREFIX ?= /usr/local
DESTDIR ?=
FOR ?= 600
BIN = $(DESTDIR)$(PREFIX)/bin
MAN = $(DESTDIR)$(PREFIX)/share/man/man1
COMPLETION = $(DESTDIR)$(PREFIX)/share/bash-completion/completions
NAMES = socat socat-audit socat-explain socat-journal
PROGRAMS = $(NAMES:%=bin/%)
SOURCES = $(shell find crates -name out -prune -o -type f \( -name '*.rt' -o -name '*.antt' \) -print) crates.txt

.PHONY: all help check test endurance memory documents picture quick bench install uninstall clean

all: $(PROGRAMS)

help:
	@echo 'make            proves and builds bin/socat and its tools, bin/socat-audit and so on; rt has to be on the PATH'
	@echo 'make quick      builds the same as bin/quick/socat and so on for a look, WITHOUT PROVING ANYTHING'
	@echo 'make test       runs the tests of the built programs'
	@echo 'make check      runs the gate: every proof, and all its tests'
	@echo 'make endurance  runs random commands for ten minutes, or for FOR=SECONDS, and judges each run'
	@echo 'make memory     runs them with each request for memory refused in turn'
	@echo 'make documents  checks the documents against the code'
	@echo 'make picture    draws docs/run.svg from a run of the tests'
	@echo 'make bench      measures the program beside its peers; bench/run --report writes docs/FIGURES.md'
	@echo 'make install    puts programs, manual pages and completion below PREFIX, with DESTDIR in front; make uninstall'
	@echo 'make clean      removes what was built'

# One run proves and builds them all. tools/build.py socat proves and builds bin/socat alone.
$(PROGRAMS) &: $(SOURCES) HANDLES tools/build.py
	tools/build.py $(NAMES)

bin/part_trials: $(SOURCES) HANDLES tools/build.py
	tools/build.py part_trials

check:
	.ci/run

test: $(PROGRAMS)
	tests/run all

endurance: $(PROGRAMS)
	FOR=$(FOR) tests/run all lasting

memory: $(PROGRAMS)
	tests/run all memory

documents:
	tests/run all documents

picture: bin/socat bin/socat-journal
	PICTURE="$(CURDIR)/docs/run.svg" tests/run all journal/busy

quick:
	for name in $(NAMES); do tools/quick.sh $$name || exit; done

bench: $(PROGRAMS) bin/part_trials
	bench/run

install: $(PROGRAMS)
	install -d "$(BIN)" "$(MAN)" "$(COMPLETION)"
	install -m 755 $(PROGRAMS) "$(BIN)"
	install -m 644 $(NAMES:%=man/%.1) "$(MAN)"
	install -m 644 completion/socat "$(COMPLETION)/socat"
	for name in $(filter-out socat,$(NAMES)); do ln -sf socat "$(COMPLETION)/$$name"; done

uninstall:
	for name in $(NAMES); do rm -f "$(BIN)/$$name" "$(MAN)/$$name.1" "$(COMPLETION)/$$name"; done

clean:
	rm -rf bin crates/*/out
