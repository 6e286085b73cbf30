# Ordinary Rust: what makes the expected outputs, the second program and the cases, trials of the library beside it, and times.

RUST = docs/src

.PHONY: expected cases peers tables wrong packs big fuzz suite x86-packs x86-limits x86-trials speed post four rows count parsers

# The outputs that programs are held to are those of ordinary Rust, which shares nothing with the Rattle source. They are made again, the
# packed cases too, and compared, as are the sums of the answers of the other calls; the suite's verdicts are held against the second
# program, and the baseline against the packed answers.
VECTORS = crates/vectors
expected: $(MADE)/vectors $(MADE)/baseline
	rustc --edition 2021 -O -o $(MADE)/expected $(RUST)/expected/main.rs
	$(MADE)/expected cases | cmp - crates/cases/stdout
	$(MADE)/expected walks | cmp - crates/walks/stdout
	rustc --edition 2021 -O --test -o $(MADE)/second-tests $(RUST)/second/lib.rs
	$(MADE)/second-tests -q
	$(MADE)/vectors pack $(MADE)/packs
	for pack in suite named made; do cmp $(MADE)/packs/$$pack $(VECTORS)/data/$$pack || exit 1; done
	$(MADE)/vectors answers $(VECTORS)/data | cmp - $(VECTORS)/stdout
	$(MADE)/vectors calls | cmp - $(RUST)/vectors/calls.txt
	$(MADE)/vectors verdicts
	$(MADE)/baseline $(VECTORS)/data $(VECTORS)/stdout

cases: $(MADE)/vectors
	$(MADE)/vectors pack $(VECTORS)/data
	$(MADE)/vectors answers $(VECTORS)/data > $(VECTORS)/stdout

# Ordinary Rust for this machine: the second program, and the cases with their answers by it.
$(MADE)/libsecond.rlib: $(wildcard $(RUST)/second/*.rs) | rust
	@mkdir -p $(MADE)
	rustc --edition 2021 -O --crate-type rlib --crate-name second -o $@ $(RUST)/second/lib.rs

$(MADE)/libvectors.rlib: $(MADE)/libsecond.rlib $(wildcard $(RUST)/vectors/*.rs $(RUST)/vectors/*/*.rs)
	rustc --edition 2021 -O --crate-type rlib --crate-name vectors --extern second=$< -o $@ $(RUST)/vectors/lib.rs

$(MADE)/vectors $(MADE)/peers: $(MADE)/%: $(MADE)/libvectors.rlib $(wildcard $(RUST)/peers/*.rs)
	rustc --edition 2021 -O -L $(MADE) --extern second=$(MADE)/libsecond.rlib --extern vectors=$< -o $@ $(RUST)/$*/main.rs

# The filter in ordinary Rust that the proved one is timed beside.
$(MADE)/libbaseline.rlib: $(wildcard $(RUST)/baseline/*.rs) | rust
	@mkdir -p $(MADE)
	rustc --edition 2021 -C opt-level=3 -C codegen-units=1 --crate-type rlib --crate-name baseline -o $@ $(RUST)/baseline/lib.rs

$(MADE)/baseline: $(MADE)/libbaseline.rlib $(MADE)/libvectors.rlib $(RUST)/baseline/main.rs
	rustc --edition 2021 -O -L $(MADE) --extern baseline=$< --extern vectors=$(MADE)/libvectors.rlib -o $@ $(RUST)/baseline/main.rs

# Outside judges, on the documents of the packs.
peers: $(MADE)/peers
	@{ command -v rxp && command -v xmllint; } > $(MADE)/found || $(call fetch,rxp libxml2-utils) || { \
	    echo 'missing: an XML processor to compare with. Install the Debian packages rxp and libxml2-utils.'; exit 1; }
	$(MADE)/peers $(VECTORS)/data

# Tables read back by Python's csv, their texts held against expat: those of the second program, and those of the library.
tables: $(MADE)/vectors $(MADE)/trials
	rm -rf $(MADE)/tables
	$(MADE)/vectors tables $(MADE)/tables/second
	$(MADE)/trials tables $(MADE)/tables/library
	python3 $(RUST)/peers/tables.py $(MADE)/tables/second
	python3 $(RUST)/peers/tables.py $(MADE)/tables/library

# The gate's wrong programs on the packed cases, by the source read as Rust, with index checks.
wrong: $(MADE)/libvectors.rlib
	rustc --edition 2021 -O -o $(MADE)/source $(RUST)/speed/source.rs
	rustc --edition 2021 -O -o $(MADE)/wrong $(RUST)/wrong/main.rs
	$(MADE)/wrong $(TIMED)

# The library and the second program in one program.
TRIALS = $(MADE)/trials
CASES = 1000000
SEED = 1
CALL =
packs: $(TRIALS)
	$(TRIALS) packs $(VECTORS)/data

big: $(TRIALS)
	$(TRIALS) big

fuzz: $(TRIALS)
	$(TRIALS) fuzz $(CASES) $(SEED) $(CALL)

suite: $(TRIALS)
	xmlconf/fetch.sh
	$(TRIALS) suite target/xmlconf

$(TRIALS): $(MADE)/libchoughbell.rlib $(MADE)/libvectors.rlib $(wildcard $(RUST)/trials/*.rs $(RUST)/speed/*.rs)
	rustc --edition 2021 -O -L $(MADE) --extern second=$(MADE)/libsecond.rlib --extern vectors=$(MADE)/libvectors.rlib \
	    --extern choughbell=$< -o $@ $(RUST)/trials/main.rs

# The same for x86-64, under the emulator: the packs, and of the big documents those at the limit, since the gazetteer takes longest there.
X86_TRIALS = $(MADE)/x86/trials
x86-packs: x86-trials
	@echo 'by the x86-64 library, under the emulator:'
	$(RUN) $(X86_TRIALS) packs $(VECTORS)/data

x86-limits: x86-trials
	@echo 'by the x86-64 library, under the emulator:'
	$(RUN) $(X86_TRIALS) limits

x86-trials: x86-library
	$(X86_RUSTC) --edition 2021 -O --crate-type rlib --crate-name second -o $(MADE)/x86/libsecond.rlib $(RUST)/second/lib.rs
	$(X86_RUSTC) --edition 2021 -O --crate-type rlib --crate-name vectors --extern second=$(MADE)/x86/libsecond.rlib \
	    -o $(MADE)/x86/libvectors.rlib $(RUST)/vectors/lib.rs
	$(X86_RUSTC) --edition 2021 -O -L $(MADE)/x86 --extern second=$(MADE)/x86/libsecond.rlib --extern vectors=$(MADE)/x86/libvectors.rlib \
	    --extern choughbell=$(MADE)/x86/libchoughbell.rlib -o $(X86_TRIALS) $(RUST)/trials/main.rs

# The library as the toolchain compiles it, for the machine at hand, and the crates' source, read as Rust. UNCHECKED= leaves index checks in
# there. One unit, so that what is inlined does not go by modules.
TIMED = utf8 points blocks words chars paths lookup compiled matcher recall covers scans plain references values instructions tags items \
    quick normal attribute tests document writer packed notes output tape passes refusals cutter reel seats together four descent bundle \
    batch mend rows sheet exported clients spreadsheet
UNCHECKED = --unchecked
WHAT = characters matcher cut

speed: rust parsers $(MADE)/libchoughbell.rlib $(MADE)/libbaseline.rlib
	@rm -f $(MADE)/figures
	rustc --edition 2021 -O -o $(MADE)/source $(RUST)/speed/source.rs
	$(MADE)/source $(UNCHECKED) $(TIMED) > $(MADE)/source.rs
	@for part in $(WHAT); do \
	    rustc --edition 2021 -O -C codegen-units=1 --cfg $$part $$(cat $(MADE)/parsers) --extern choughbell=$(MADE)/libchoughbell.rlib \
	        --extern baseline=$(MADE)/libbaseline.rlib -o $(MADE)/$$part $(RUST)/speed/main.rs && \
	    $(MADE)/$$part $(MADE)/figures || exit 1; done
	rustc --edition 2021 -O -o $(MADE)/plot $(RUST)/speed/plot.rs
	@if [ -f $(MADE)/figures ]; then $(MADE)/plot < $(MADE)/figures > $(MADE)/speed.svg && cp $(MADE)/speed.svg docs/speed.svg; fi

# Many small documents in one batch, beside single calls and one document of the same bytes.
post: rust $(MADE)/libchoughbell.rlib
	rustc --edition 2021 -O -L $(MADE) --extern choughbell=$(MADE)/libchoughbell.rlib -o $(MADE)/post $(RUST)/speed/post.rs
	$(MADE)/post

# Four clients in one call, beside four single calls.
four: rust $(MADE)/libchoughbell.rlib
	rustc --edition 2021 -O -L $(MADE) --extern choughbell=$(MADE)/libchoughbell.rlib -o $(MADE)/four $(RUST)/speed/four.rs
	$(MADE)/four

# Tables for a spreadsheet, beside cuts by the same lists.
rows: rust $(MADE)/libchoughbell.rlib
	rustc --edition 2021 -O -L $(MADE) --extern choughbell=$(MADE)/libchoughbell.rlib -o $(MADE)/rows $(RUST)/speed/rows.rs
	$(MADE)/rows

# Instructions a byte, by Debian's valgrind.
count: rust parsers $(MADE)/libchoughbell.rlib $(MADE)/libbaseline.rlib
	@command -v valgrind > $(MADE)/found || $(call fetch,valgrind) || { \
	    echo 'missing: valgrind, which counts instructions. Install the Debian package valgrind.'; exit 1; }
	rustc --edition 2021 -O $$(cat $(MADE)/parsers) --extern choughbell=$(MADE)/libchoughbell.rlib \
	    --extern baseline=$(MADE)/libbaseline.rlib -o $(MADE)/count $(RUST)/speed/count.rs
	$(RUST)/speed/count.sh $(MADE)/count $$(sed -n 's/^--cfg \(expat\|libxml\) .*/\1/p' $(MADE)/parsers | sed 's/libxml/libxml2/')

# Other parsers, to be timed beside it. One that is missing is installed where that can be done; else it is said, and its rows stay out.
parsers:
	@mkdir -p $(MADE) && : > $(MADE)/parsers
	@links() { echo 'int main(void) { return 0; }' | cc -x c - -l$$1 -o $(MADE)/links 2> /dev/null; }; \
	parser() { links $$2 || $(call fetch,$$3); \
	    if links $$2; then echo "--cfg $$1 -l $$2" >> $(MADE)/parsers; \
	    else echo "missing: $$1, so its rows are left out. Install the Debian package $$3."; fi; }; \
	parser expat expat libexpat1-dev; parser libxml xml2 libxml2-dev
