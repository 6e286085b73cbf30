# make run          cuts a sample gazetteer by two lists
# make test         every check, and last what the toolchain's gate, rt ci, said last: 'N passed, 0 failed'
# make outside      those of its checks that need Rust or an emulator
# make runs         the program `cut` on further cases
#
# host/rules.mk, the command and the library under it:
# make choughbell   the command, target/host/choughbell
# make host-tests   its tests
# make install      the command, its man page and completions, the header and the library, below PREFIX (/usr/local); make uninstall
#                   removes them
# make deb          a package of the same for Debian, in target/
#
# docs/src/rules.mk, ordinary Rust that the filter is compared with:
# make cases        writes the packed cases and their answers anew, by the second program
# make packs        the library, called from Rust, on the packed cases, beside the second program
# make big          the same on documents of 16 MiB and about
# make fuzz         the same on CASES cases of a generator, from SEED on; CALL names a call other than the cut
# make suite        all 399 files of the W3C's suite that have no document type, which it fetches, by both
# make wrong        the gate's wrong programs, of which each should answer some packed case otherwise
# make peers        whether documents are well-formed, beside two XML processors from Debian
# make tables       rows for a spreadsheet, read back by Python's csv, and their texts beside expat's
# make speed        how fast the library is beside ordinary Rust and other parsers; WHAT=characters, matcher or cut names one part of it
# make post         how long 1,000 small documents take in one batch, beside single calls and one document
# make four         how long one call for four clients takes, beside four single calls
# make rows         how long tables for a spreadsheet take, beside cuts
# make count        how many instructions it executes for each byte, beside them

MADE = target/rust

.PHONY: run test outside runs cut rt rust format lines apart

run: rt cut
	@for list in atlas desk; do \
	    echo; echo "examples/gazetteer.xml by examples/$$list.lst:"; cat examples/$$list.lst; echo; \
	    crates/cut/run.sh examples/$$list.lst < examples/gazetteer.xml || exit 1; \
	done

# First what fails fastest and needs the toolchain alone: the layout; the gate, which proves what it did not prove on this machine before,
# leaves the programs built, and passes over a wrong program that no longer fits the text or is refused for a missing name alone, which is
# a fault here; runs of the program `cut`. Then what needs more. The gate's last line is said again at the end.
test: rt format lines apart
	@said=$$(mktemp -d) && trap 'rm -rf $$said' EXIT && \
	{ rt ci; echo $$? > $$said/status; } | tee $$said/lines && [ "$$(cat $$said/status)" = 0 ] && \
	{ ! grep -E '^rt: ok.*, [0-9]+ bad|^rt: must-fail .*[(]only because' $$said/lines || { \
	    echo 'a wrong program that says nothing of its contract, above'; exit 1; }; } && \
	crates/cut/runs.sh && $(MAKE) --no-print-directory -s outside && tail -n 1 $$said/lines

# What needs Rust: the expected outputs, made anew; the library for the machine at hand on the packed cases and on big documents, and the
# command over it. Where the machine is not x86-64, also the library for x86-64, under an emulator. A machine that lacks some of it
# makes the checks that it can make, and is told at the end what was missing and which were not made.
EMULATED = $(if $(filter x86_64,$(shell uname -m)),,x86-packs x86-limits x86-host-tests)
outside:
	@made= left= missing=; \
	there() { $(MAKE) --no-print-directory -s $$1 || { missing="$${missing:+$$missing, }$$2" && false; }; }; \
	if there rust rustc; then $(MAKE) --no-print-directory -s expected $(TRIALS) || exit 1; made='packs big'; \
	else left='expected packs big'; fi; \
	if there cargo cargo; then made="$$made host-tests"; else left="$$left host-tests"; fi; \
	if [ -n '$(EMULATED)' ]; then \
	    if there x86 'what compiles for x86-64 and runs it'; then made="$$made $(EMULATED)"; else left="$$left $(EMULATED)"; fi; fi; \
	if [ -n "$$made" ]; then $(MAKE) --no-print-directory -s -j2 -O $$made || exit 1; fi; \
	if [ -n "$$left" ]; then echo "missing: $$missing. So these were not made:" $$left; exit 1; fi

runs: rt cut
	crates/cut/runs.sh

# The program, proved and built.
cut:
	@echo 'proving and building the program: minutes the first time, then seconds'
	@mkdir -p target/log && (cd crates/cut && rt run < stdin) > target/log/make 2>&1 || { cat target/log/make; exit 1; }

# What has to be there, and what can be installed where it is not.
rt:
	@command -v rt > /dev/null || { \
	    echo 'missing: the Rattle toolchain. Its command rt must be on the PATH; nothing here can be checked without it.'; exit 1; }

rust:
	@command -v rustc > /dev/null || $(call fetch,rustc) || { \
	    echo 'missing: rustc, which makes the expected outputs anew. Install the Debian package rustc.'; exit 1; }

# $(call fetch,PACKAGES) installs Debian's packages, and says only that.
APT = apt-get -q -o Acquire::Retries=3
fetch = { echo 'installing $(1)'; mkdir -p $(MADE); \
    { $(APT) update && $(APT) install -y --no-install-recommends $(1); } > $(MADE)/apt 2>&1 || { tail -n 5 $(MADE)/apt; false; }; }

format:
	@git ls-files '*.rt' '*.antt' | xargs "$$(dirname "$$(readlink -f "$$(command -v rt)")")/rattle" fmt --check

# No line has over 140 characters.
lines:
	@! git ls-files '*.rt' '*.antt' '*.rs' '*.md' '*.sh' '*.mk' '*.c' '*.h' Makefile .ci/run | LC_ALL=C.UTF-8 xargs grep -nE '^.{141,}' || { \
	    echo 'lines over 140 characters, above'; exit 1; }

# The plain engine calls nothing of the first: no line of its source but comments has a path into one of these crates.
FIRST = lookup|compiled|matcher|tests|quick|notes|output|passes|cutter
apart:
	@! grep -nE '\b($(FIRST))::' crates/descent/src/*.rt | grep -vE '^[^:]*:[0-9]*: *//' || { \
	    echo 'the plain engine calls the first one, above'; exit 1; }

include host/rules.mk
include docs/src/rules.mk
