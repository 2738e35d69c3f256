# Builds and installs what members run and link: make, make install PREFIX=.. DESTDIR=.., make uninstall. The first build proves every function, which takes
# minutes; README.md says what a machine needs.
PREFIX ?= /usr/local
DESTDIR ?=
BINDIR ?= $(PREFIX)/bin
LIBDIR ?= $(PREFIX)/lib
INCLUDEDIR ?= $(PREFIX)/include
LIBEXECDIR ?= $(PREFIX)/libexec
DATADIR ?= $(PREFIX)/share
MANDIR ?= $(DATADIR)/man
MACHINE ?= $(shell uname -m)
INSTALL ?= install

VERSION := $(shell sed -n 's/^\#define KUAMBYTE_VERSION "\(.*\)"/\1/p' include/kuambyte.h)
OWN := $(DATADIR)/kuambyte
CRATE := $(DATADIR)/cargo/registry/kuambyte-$(VERSION)
COMPLETIONS := $(DATADIR)/bash-completion/completions
DOCS := $(DATADIR)/doc/kuambyte
STAGED := target/install

all: program library

program:
	launch/build program

library:
	launch/build library

help:
	@echo 'make                  builds the program, target/desk/kuambyte, and the library, target/library/libkuambyte.a'
	@echo 'make install          puts program, library, header, Rust crate, pkg-config file, manual page, completion and sample shelves below'
	@echo '                      PREFIX, $(PREFIX); DESTDIR stands before every path, for packages'
	@echo 'make uninstall        takes them away again; give the same PREFIX and DESTDIR'

# What depends on where things are installed is made anew each time.
staged: program library
	mkdir -p $(STAGED)
	launch/build link '$(OWN)/shelves' $(STAGED)/program
	sed -e 's|@PREFIX@|$(PREFIX)|' -e 's|@LIBDIR@|$(LIBDIR)|' -e 's|@INCLUDEDIR@|$(INCLUDEDIR)|' -e 's|@VERSION@|$(VERSION)|' \
	    launch/kuambyte.pc.in >$(STAGED)/kuambyte.pc
	sed -e 's|@PROGRAM@|$(LIBEXECDIR)/kuambyte/kuambyte|' launch/emulated.in >$(STAGED)/emulated
	sed -e '/^# For the tests alone/,$$d' rust/kuambyte/Cargo.toml >$(STAGED)/Cargo.toml

# The program is compiled for x86-64; elsewhere a script runs it through the emulator of the Rattle kit.
install: staged
ifeq ($(MACHINE),x86_64)
	$(INSTALL) -D -m 755 $(STAGED)/program '$(DESTDIR)$(BINDIR)/kuambyte'
else
	$(INSTALL) -D -m 755 $(STAGED)/program '$(DESTDIR)$(LIBEXECDIR)/kuambyte/kuambyte'
	$(INSTALL) -D -m 755 $(STAGED)/emulated '$(DESTDIR)$(BINDIR)/kuambyte'
endif
	$(INSTALL) -D -m 644 target/library/libkuambyte.a '$(DESTDIR)$(LIBDIR)/libkuambyte.a'
	$(INSTALL) -D -m 644 include/kuambyte.h '$(DESTDIR)$(INCLUDEDIR)/kuambyte.h'
	$(INSTALL) -D -m 644 $(STAGED)/kuambyte.pc '$(DESTDIR)$(LIBDIR)/pkgconfig/kuambyte.pc'
	$(INSTALL) -D -m 644 man/kuambyte.1 '$(DESTDIR)$(MANDIR)/man1/kuambyte.1'
	$(INSTALL) -D -m 644 completion/kuambyte.bash '$(DESTDIR)$(COMPLETIONS)/kuambyte'
	$(INSTALL) -d '$(DESTDIR)$(OWN)/shelves' '$(DESTDIR)$(DOCS)/docs' '$(DESTDIR)$(CRATE)/src' '$(DESTDIR)$(CRATE)/examples'
	$(INSTALL) -m 644 shelves/*.shelf shelves/*.txt '$(DESTDIR)$(OWN)/shelves'
	$(INSTALL) -m 644 README.md '$(DESTDIR)$(DOCS)'
	$(INSTALL) -m 644 docs/*.md '$(DESTDIR)$(DOCS)/docs'
	$(INSTALL) -m 644 $(STAGED)/Cargo.toml rust/kuambyte/build.rs '$(DESTDIR)$(CRATE)'
	$(INSTALL) -m 644 rust/kuambyte/src/*.rs '$(DESTDIR)$(CRATE)/src'
	$(INSTALL) -m 644 rust/kuambyte/examples/*.rs '$(DESTDIR)$(CRATE)/examples'
	printf '{"files":{}}\n' >'$(DESTDIR)$(CRATE)/.cargo-checksum.json'

# Folders that others use too stay.
uninstall:
	rm -f '$(DESTDIR)$(BINDIR)/kuambyte' '$(DESTDIR)$(LIBDIR)/libkuambyte.a' '$(DESTDIR)$(INCLUDEDIR)/kuambyte.h'
	rm -f '$(DESTDIR)$(LIBDIR)/pkgconfig/kuambyte.pc' '$(DESTDIR)$(MANDIR)/man1/kuambyte.1' '$(DESTDIR)$(COMPLETIONS)/kuambyte'
	rm -rf '$(DESTDIR)$(LIBEXECDIR)/kuambyte' '$(DESTDIR)$(OWN)' '$(DESTDIR)$(DOCS)' '$(DESTDIR)$(CRATE)'

.PHONY: all program library help staged install uninstall
# Both builds write the folders out/ of crates that they share.
.NOTPARALLEL:
