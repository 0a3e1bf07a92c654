# Builds what is missing, installs it, packs it. `make help` tells the targets.
#
# What is proved is made where it is not there, never again because something changed: `.ci/run` is the gate.

PREFIX ?= /usr/local
DESTDIR ?=
BINDIR = $(PREFIX)/bin
LIBDIR = $(PREFIX)/lib
INCLUDEDIR = $(PREFIX)/include
DOCDIR = $(PREFIX)/share/doc/lanecockle

# where lanecockle.pc says that the rest stands; in a release archive, which may stand anywhere, beside itself
PCPREFIX = $(PREFIX)

VERSION := $(shell cat VERSION)
MAJOR := $(firstword $(subst ., ,$(VERSION)))

STATIC = target/staticlib/libdesk.a
SHARED = target/staticlib/liblanecockle.so
PROGRAMS = target/bin/listing target/bin/slipfile target/bin/ledger target/bin/wagefile
DOCS = callers/release/README.md docs/FIELDS.md CHANGELOG.md

SONAME = liblanecockle.so.$(MAJOR)
SOFILE = liblanecockle.so.$(VERSION)

# two `rt` in one checkout disturb each other
.NOTPARALLEL:
.PHONY: all install uninstall wheel release help

all: $(STATIC) $(SHARED) $(PROGRAMS)
	@echo "there: $^"

$(STATIC):
	@echo "$@ is proved and written: some minutes, fewer where its crates were checked before"
	@callers/library

$(SHARED): $(STATIC) VERSION callers/build
	@echo "$@ is made of $<: about a second"
	@callers/build

$(PROGRAMS): target/bin/%:
	@echo "$@ is proved and built: half a minute once the library is there"
	@tools/programs $* > /dev/null

install: $(STATIC) $(SHARED) $(PROGRAMS)
	@install -d $(addprefix $(DESTDIR),$(BINDIR) $(LIBDIR)/pkgconfig $(INCLUDEDIR) $(DOCDIR))
	@install -m 755 $(PROGRAMS) $(DESTDIR)$(BINDIR)
	@install -m 644 include/lanecockle.h $(DESTDIR)$(INCLUDEDIR)
	@install -m 644 $(STATIC) $(DESTDIR)$(LIBDIR)/liblanecockle.a
	@install -m 755 $(SHARED) $(DESTDIR)$(LIBDIR)/$(SOFILE)
	@ln -sf $(SOFILE) $(DESTDIR)$(LIBDIR)/$(SONAME)
	@ln -sf $(SONAME) $(DESTDIR)$(LIBDIR)/liblanecockle.so
	@sed -e 's|@PREFIX@|$(PCPREFIX)|' -e 's|@VERSION@|$(VERSION)|' \
		-e 's|@LIBDIR@|$(patsubst $(PREFIX)/%,$${prefix}/%,$(LIBDIR))|' \
		-e 's|@INCLUDEDIR@|$(patsubst $(PREFIX)/%,$${prefix}/%,$(INCLUDEDIR))|' \
		callers/lanecockle.pc.in > $(DESTDIR)$(LIBDIR)/pkgconfig/lanecockle.pc
	@chmod 644 $(DESTDIR)$(LIBDIR)/pkgconfig/lanecockle.pc
	@install -m 644 $(DOCS) $(DESTDIR)$(DOCDIR)
	@echo "installed: lanecockle $(VERSION) in $(DESTDIR)$(PREFIX)"
	@[ -n "$(DESTDIR)" ] || echo "so that programs find $(SONAME): run ldconfig, or set LD_LIBRARY_PATH to $(LIBDIR)"

uninstall:
	@rm -f $(addprefix $(DESTDIR)$(BINDIR)/,$(notdir $(PROGRAMS))) $(DESTDIR)$(INCLUDEDIR)/lanecockle.h
	@rm -f $(addprefix $(DESTDIR)$(LIBDIR)/,liblanecockle.a $(SOFILE) $(SONAME) liblanecockle.so pkgconfig/lanecockle.pc)
	@rm -f $(addprefix $(DESTDIR)$(DOCDIR)/,$(notdir $(DOCS)))
	@rmdir $(DESTDIR)$(DOCDIR) 2>/dev/null || true
	@echo "uninstalled: lanecockle $(VERSION) from $(DESTDIR)$(PREFIX)"

wheel: $(SHARED)
	@python3 -B callers/python/backend.py target/wheel

release:
	@tools/release

help:
	@echo "make            builds what is missing: the library and the programs, some minutes where nothing is there"
	@echo "make install    the header, the libraries, lanecockle.pc, the programs and their papers"
	@echo "                  PREFIX=/usr/local   where they are to stand; BINDIR, LIBDIR, INCLUDEDIR, DOCDIR are below it"
	@echo "                  DESTDIR=            a folder in front of it, for packages"
	@echo "make uninstall  takes these away, with the same PREFIX and DESTDIR"
	@echo "make wheel      the Python package, with the shared library inside, in target/wheel"
	@echo "make release    the archive for x86-64 Linux, in target/release; tools/release-test tries it"
	@echo "make help       this"
