# uuspool: the job spool of a UUCP site, with its proofs.
#
#   make try        builds the program without proofs at build/try/uuspool, and shows the main job
#   make            proves what the program stands on and leaves it at build/uuspool
#   make first-run  the main job on a real file, killed inside a write and reopened
#   make quick      what takes seconds and proves nothing, on the program that is there
#   make test       the gate: every proof from nothing (but for what the kit kept of a gate that
#                   passed here), every edit that has to be refused, every test and run; and, once
#                   the programs are proved, beside the rest, the tests of tests/ (make runs)
#   make bench      what calls of the spool cost over a real file
#   make install    build/uuspool and what stands behind mailers, man pages, completions and
#                   examples below $(DESTDIR)$(PREFIX); make uninstall takes them away
#   make dist       a tarball of these, and make deb a Debian package, in build/
#   make clean      removes build/ and the kept work of every crate

PREFIX = /usr/local
DESTDIR =

MAKEFLAGS += --no-print-directory

.PHONY: all build try first-run bench quick test runs install uninstall dist deb clean

all: build

build:
	@scripts/build

try:
	@scripts/try
	@scripts/first-run build/try/uuspool 8

first-run: build
	@scripts/first-run build/uuspool

bench: build
	@scripts/bench

quick:
	@scripts/quick

test:
	@scripts/check-tree
	@scripts/check-texts
	@scripts/reviewed
	@lanes=$$(scripts/lanes) && RT_JOBS=$$lanes scripts/prove-all --beside $(MAKE) runs
	@tests/refused-memory
	@scripts/prove-all --again

# Tests of the programs that rt ci leaves, the longest first, and how many of them run at once: half as
# many as there are processors, because the proofs go on beside them.
RUNS = tests/operator-size tests/calls tests/attacks tests/copy-stops tests/migration-stops \
       tests/unpack-stops tests/transcripts tests/fronts tests/bundle-exchange tests/next-calls \
       tests/check-help tests/readme-session tests/package tests/routes tests/failing-streams \
       tests/syncs tests/openings tests/batch-stops tests/seals tests/damaged-files tests/operate \
       tests/limits tests/backup tests/page tests/calls-units tests/taylor tests/site
.PHONY: $(RUNS)
RUNS_AT_ONCE ?= $(shell echo $$((($$(nproc) + 1) / 2)))

# The output of each comes when it has ended. After one that fails no other begins.
runs:
	@$(MAKE) --jobs=$(RUNS_AT_ONCE) --output-sync=target $(RUNS)

$(RUNS):
	@$@

install: build
	@scripts/install build/uuspool '$(PREFIX)' '$(DESTDIR)'

uninstall:
	@scripts/install --remove '$(PREFIX)' '$(DESTDIR)'

dist: build
	@scripts/package dist build/uuspool

deb: build
	@scripts/package deb build/uuspool

clean:
	rm -rf build crates/*/out
