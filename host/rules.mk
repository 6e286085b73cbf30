# The command `choughbell`, and the library under it.

.PHONY: library xmllint cargo proving choughbell host-tests changed install uninstall deb x86 x86-library x86-host-tests

# The proved library: for the machine at hand, and on the way that for x86-64. It is made again when source or proofs have changed. While it
# is proved there is a line for each crate, and else nothing is said unless it fails.
NATIVE = target/native
MAKE_LIBRARY = host/native.sh
PROVED = $(shell find crates/*/src crates/*/specs crates/*/proofs -name '*.rt' -o -name '*.antt')
$(NATIVE)/libexported.a: host/native.sh host/include/choughbell.h crates.txt $(PROVED) | rt rust
	@mkdir -p $(NATIVE) && { $(MAKE_LIBRARY) $(NATIVE) 2>&1; echo $$? > $(NATIVE)/status; } | tee $(NATIVE)/log | \
	    sed -u -n -e '/^crate /h' -e '/^logic=proved/{x;s/^crate \(.*\): .*/\1 proved/p}'; [ "$$(cat $(NATIVE)/status)" = 0 ] || { \
	    cat $(NATIVE)/log; exit 1; }

library: $(NATIVE)/libexported.a

# The crate over it that Rust calls.
$(MADE)/libchoughbell.rlib: $(NATIVE)/libexported.a $(wildcard host/src/*.rs) | rust
	@mkdir -p $(MADE)
	rustc --edition 2021 -O --crate-type rlib --crate-name choughbell -L $(NATIVE) -o $@ host/src/lib.rs

# The command over the library, by cargo.
CARGO_WORDS = --release --offline --locked --manifest-path host/Cargo.toml
HOST_CARGO_WORDS = $(CARGO_WORDS) --target-dir target/cargo

cargo:
	@mkdir -p $(MADE)
	@command -v cargo > /dev/null || $(call fetch,cargo) || { \
	    echo 'missing: cargo, which builds the command. Install the Debian package cargo.'; exit 1; }

proving:
	@echo 'proving the library and building the command: minutes the first time, then seconds'

choughbell: proving library cargo
	cargo build -q $(HOST_CARGO_WORDS)
	@mkdir -p target/host && cp target/cargo/release/choughbell target/host/choughbell

# The tests of its parts print only what fails. Those of the command print how many runs there were.
# Of the commands that `explain` names, xmllint may be missing: then the tests say that they leave those out.
xmllint:
	@command -v xmllint > /dev/null || $(call fetch,libxml2-utils) || true

host-tests: choughbell xmllint
	@mkdir -p target/log && cargo test -q $(HOST_CARGO_WORDS) > target/log/host 2>&1 || { cat target/log/host; exit 1; }
	host/tests/run.sh target/host/choughbell

PREFIX = /usr/local
PUT = $(DESTDIR)$(PREFIX)

# What is built and no older than its source is taken as it is: who installs as root may have no toolchain. `make changed` names what is
# newer.
BUILT = target/host/choughbell
SOURCES = host/src host/include host/Cargo.toml host/Cargo.lock host/build.rs host/native.sh crates.txt crates/*/src crates/*/specs \
    crates/*/proofs
changed:
	@[ ! -e '$(BUILT)' ] || find $(SOURCES) -type f -newer '$(BUILT)'

install:
	@[ -x $(BUILT) ] && [ -z "$$($(MAKE) --no-print-directory -s changed)" ] || $(MAKE) --no-print-directory choughbell
	install -d '$(PUT)/bin' '$(PUT)/share/man/man1' '$(PUT)/include' '$(PUT)/lib/pkgconfig' \
	    '$(PUT)/share/bash-completion/completions' '$(PUT)/share/zsh/site-functions' '$(PUT)/share/fish/vendor_completions.d'
	install $(BUILT) '$(PUT)/bin/choughbell'
	install -m 644 host/man/choughbell.1 '$(PUT)/share/man/man1/choughbell.1'
	install -m 644 host/include/choughbell.h '$(PUT)/include/choughbell.h'
	install -m 644 $(NATIVE)/libexported.a '$(PUT)/lib/libchoughbell.a'
	install -m 644 host/choughbell.pc '$(PUT)/lib/pkgconfig/choughbell.pc'
	sed -i -e 's|@PREFIX@|$(PREFIX)|' -e "s|@VERSION@|$$(sed -n 's/^version = "\(.*\)"/\1/p' host/Cargo.toml)|" \
	    '$(PUT)/lib/pkgconfig/choughbell.pc'
	install -m 644 host/completion/choughbell.bash '$(PUT)/share/bash-completion/completions/choughbell'
	install -m 644 host/completion/_choughbell '$(PUT)/share/zsh/site-functions/_choughbell'
	install -m 644 host/completion/choughbell.fish '$(PUT)/share/fish/vendor_completions.d/choughbell.fish'

uninstall:
	rm -f '$(PUT)/bin/choughbell' '$(PUT)/share/man/man1/choughbell.1' '$(PUT)/include/choughbell.h' '$(PUT)/lib/libchoughbell.a' \
	    '$(PUT)/lib/pkgconfig/choughbell.pc' '$(PUT)/share/bash-completion/completions/choughbell' \
	    '$(PUT)/share/zsh/site-functions/_choughbell' '$(PUT)/share/fish/vendor_completions.d/choughbell.fish'

# A package of the same for Debian, target/choughbell_VERSION_MACHINE.deb.
DEB = target
VERSION = $(shell sed -n 's/^version = "\(.*\)"/\1/p' host/Cargo.toml)
deb:
	@command -v dpkg-deb > /dev/null || { echo 'missing: dpkg-deb, which makes the package. It is in Debian'"'"'s package dpkg.'; exit 1; }
	@$(MAKE) --no-print-directory -s install DESTDIR='$(DEB)/staged' PREFIX=/usr
	host/package.sh '$(DEB)/staged' $(VERSION) '$(DEB)'

# Elsewhere than on x86-64 the library for x86-64 is tried too, as a second check: under an emulator, in programs of Debian's compilers for
# x86-64, since they come with that machine's standard library.
X86_RUSTC = /usr/bin/rustc --target x86_64-unknown-linux-gnu -C linker=x86_64-linux-gnu-gcc \
    -C target-feature=+crt-static -C relocation-model=static
X86_CC = x86_64-linux-gnu-gcc -static
RUN = qemu-x86_64
X86_MISSING = ls /usr/bin/rustc /usr/bin/cargo /usr/lib/rustlib/x86_64-unknown-linux-gnu/lib /usr/lib/x86_64-linux-gnu/libc.a && \
    command -v x86_64-linux-gnu-gcc && command -v qemu-x86_64
X86_PACKAGES = rustc cargo libstd-rust-dev:amd64 gcc-x86-64-linux-gnu libc6-dev:amd64 qemu-user

x86:
	@mkdir -p $(MADE)
	@{ $(X86_MISSING); } > $(MADE)/found 2>&1 || { dpkg --add-architecture amd64 && $(call fetch,$(X86_PACKAGES)); } || { \
	    echo 'missing: what compiles for x86-64 and runs it. Install the Debian packages $(X86_PACKAGES).'; exit 1; }

x86-library: x86 library
	@mkdir -p $(MADE)/x86
	$(X86_RUSTC) --edition 2021 -O --crate-type rlib --crate-name choughbell -L $(NATIVE)/x86 \
	    -o $(MADE)/x86/libchoughbell.rlib host/src/lib.rs

# The command's own tests, by this library.
X86_ENV = RUSTC=/usr/bin/rustc RUSTFLAGS='-C target-feature=+crt-static -C relocation-model=static' \
    CARGO_TARGET_X86_64_UNKNOWN_LINUX_GNU_LINKER=x86_64-linux-gnu-gcc CHOUGHBELL_LIBRARY='$(CURDIR)/$(NATIVE)/x86'
X86_CARGO_WORDS = $(CARGO_WORDS) --target-dir target/cargo-x86 --target x86_64-unknown-linux-gnu
x86-host-tests: x86-library
	@echo 'by the x86-64 library, under the emulator:'
	$(X86_ENV) /usr/bin/cargo build -q $(X86_CARGO_WORDS)
	RUN='$(RUN)' CC='$(X86_CC)' LIBRARY=$(NATIVE)/x86/libexported.a \
	    host/tests/run.sh target/cargo-x86/x86_64-unknown-linux-gnu/release/choughbell
