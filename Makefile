# `make` proves and builds the archive and the Rust crate over it, `make tool` the office's tool; `make install` puts
# header, archive, a pkg-config file and the pages that a caller reads under PREFIX (and DESTDIR before it, for
# packages), `make install-tool` the tool, its man page and its completion for bash. `make check` is the whole gate,
# `make wrong` tries the wrong programs that it does not try, `make bench` is the benchmark.

PREFIX ?= /usr/local
includedir = $(PREFIX)/include
libdir = $(PREFIX)/lib
bindir = $(PREFIX)/bin
mandir = $(PREFIX)/share/man
docdir = $(PREFIX)/share/doc/vespruldo
completionsdir = $(PREFIX)/share/bash-completion/completions
version := $(shell sed -n 's/^version = "\(.*\)"$$/\1/p' host/Cargo.toml)
archive = target/staticlib/libvespruldo.a
tool = target/office/cards
completion = target/office/completion
# All but what rt keeps beside a crate, in its folder out/.
sources = crates.txt $(shell find crates -regex 'crates/[^/]*/out' -prune -o -type f -print)
# What header and README name, in the folders in which they name it.
pages = README.md LICENSE $(wildcard docs/*.md) docs/cards.1 $(wildcard examples/*.c)

all: archive crate

archive: $(archive)

# tools/prove runs rt, and says on standard error which crate is being proved, and of how many.
$(archive): $(sources)
	@tools/prove vespruldo
	@mkdir -p $(@D)
	@cp crates/vespruldo/out/libvespruldo.a $@

tool: $(tool) $(completion)

$(tool): $(sources)
	@tools/link-tool

$(completion): crates/cards/src/commands.rt crates/cards/src/options.rt tools/completion
	@mkdir -p $(@D)
	@tools/completion >$@.new && mv $@.new $@

crate: $(archive)
	. tools/x86-64.sh && cd host && x86_cargo build --release --locked --offline -p vespruldo

install: $(archive)
	install -d '$(DESTDIR)$(includedir)' '$(DESTDIR)$(libdir)/pkgconfig' '$(DESTDIR)$(docdir)/docs' \
		'$(DESTDIR)$(docdir)/examples'
	install -m 644 include/vespruldo.h '$(DESTDIR)$(includedir)'
	install -m 644 $(archive) '$(DESTDIR)$(libdir)'
	sed -e 's|@includedir@|$(includedir)|' -e 's|@libdir@|$(libdir)|' -e 's|@version@|$(version)|' vespruldo.pc.in \
		>'$(DESTDIR)$(libdir)/pkgconfig/vespruldo.pc'
	chmod 644 '$(DESTDIR)$(libdir)/pkgconfig/vespruldo.pc'
	for page in $(pages); do install -m 644 "$$page" '$(DESTDIR)$(docdir)'/"$$page" || exit 1; done

install-tool: $(tool) $(completion)
	install -d '$(DESTDIR)$(bindir)' '$(DESTDIR)$(mandir)/man1' '$(DESTDIR)$(completionsdir)'
	install -m 755 $(tool) '$(DESTDIR)$(bindir)'
	install -m 644 docs/cards.1 '$(DESTDIR)$(mandir)/man1'
	install -m 644 $(completion) '$(DESTDIR)$(completionsdir)/cards'

uninstall:
	rm -f '$(DESTDIR)$(includedir)/vespruldo.h' '$(DESTDIR)$(libdir)/libvespruldo.a' \
		'$(DESTDIR)$(libdir)/pkgconfig/vespruldo.pc' '$(DESTDIR)$(bindir)/cards' \
		'$(DESTDIR)$(mandir)/man1/cards.1' '$(DESTDIR)$(completionsdir)/cards'
	for page in $(pages); do rm -f '$(DESTDIR)$(docdir)'/"$$page"; done
	rmdir '$(DESTDIR)$(docdir)/docs' '$(DESTDIR)$(docdir)/examples' '$(DESTDIR)$(docdir)' 2>/dev/null || true

check:
	.ci/run

wrong:
	tools/wrong

bench: $(archive)
	tools/setup
	bench/run

.PHONY: all archive tool crate install install-tool uninstall check wrong bench
