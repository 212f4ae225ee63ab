# make build: the stand-alone program, build/clang_format.  make test: the gate.
# make install, make uninstall: the program and its pages.  make install-pages: the pages alone, with no proof.
# make dist: a tarball.  make deb: a Debian package.  Both stand in build/ then.
# make bench: bench/throughput.  make clean: takes away what was built.
# With PROGRAM=PATH the program at PATH is taken, and none is proved or built.
# No rule of make's own: it would link that program anew from an object file beside it.
MAKEFLAGS += --no-builtin-rules
PREFIX ?= /usr/local
PROGRAM = build/clang_format
MANUALS = $(PREFIX)/share/man
BASH_COMPLETIONS = $(PREFIX)/share/bash-completion/completions
ZSH_COMPLETIONS = $(PREFIX)/share/zsh/site-functions
FISH_COMPLETIONS = $(PREFIX)/share/fish/vendor_completions.d
DOCUMENTS = $(PREFIX)/share/doc/clang_format

# A licence is handed out too, once there is one.
PAGES = docs/USING.md docs/KEYS.md docs/FROM_CLANG_FORMAT.md docs/PROFILE.md CHANGELOG.md \
  $(wildcard LICENSE* LICENCE* COPYING*)
SOURCES = $(shell find crates crates.txt -path '*/out' -prune -o -type f -print)

.PHONY: build test install install-program install-pages uninstall dist deb bench clean

build:
	bin/build

# The same rule as in bin/clang_format: it is built where it is older than its sources.
build/clang_format: $(SOURCES)
	bin/build

test:
	.ci/run

install: install-program install-pages

install-program: $(PROGRAM)
	install -D -m 755 "$(PROGRAM)" "$(DESTDIR)$(PREFIX)/bin/clang_format"

install-pages:
	install -D -m 644 share/man/clang_format.1 "$(DESTDIR)$(MANUALS)/man1/clang_format.1"
	install -D -m 644 share/completions/clang_format.bash "$(DESTDIR)$(BASH_COMPLETIONS)/clang_format"
	install -D -m 644 share/completions/_clang_format "$(DESTDIR)$(ZSH_COMPLETIONS)/_clang_format"
	install -D -m 644 share/completions/clang_format.fish "$(DESTDIR)$(FISH_COMPLETIONS)/clang_format.fish"
	install -d "$(DESTDIR)$(DOCUMENTS)"
	install -m 644 $(PAGES) "$(DESTDIR)$(DOCUMENTS)"
	install -D -m 755 integrations/config/take_over "$(DESTDIR)$(DOCUMENTS)/examples/take_over"

uninstall:
	rm -f "$(DESTDIR)$(PREFIX)/bin/clang_format"
	rm -f "$(DESTDIR)$(MANUALS)/man1/clang_format.1"
	rm -f "$(DESTDIR)$(BASH_COMPLETIONS)/clang_format"
	rm -f "$(DESTDIR)$(ZSH_COMPLETIONS)/_clang_format"
	rm -f "$(DESTDIR)$(FISH_COMPLETIONS)/clang_format.fish"
	for page in $(notdir $(PAGES)); do rm -f "$(DESTDIR)$(DOCUMENTS)/$$page"; done
	rm -f "$(DESTDIR)$(DOCUMENTS)/examples/take_over"
	rmdir "$(DESTDIR)$(DOCUMENTS)/examples" "$(DESTDIR)$(DOCUMENTS)" 2>/dev/null || true

dist: $(PROGRAM)
	PROGRAM="$(PROGRAM)" bin/package tarball

deb: $(PROGRAM)
	PROGRAM="$(PROGRAM)" bin/package deb

bench:
	bench/throughput

clean:
	rm -rf build crates/*/out
