# The library for C programs, its tools and the listing program.
#
#   make packages                    installs the Debian packages that the build and its tests need
#   make                             both libraries, the listing program and the tools; V=1 shows whole commands
#   make run                         proves and builds the listing program and runs it on the sample sheet
#   make test                        builds and runs everything under host/, with the listing program, the weights of the
#                                    program vectors, an installation, an unpacked release and builds that lack a
#                                    package; a check that is left out is an error, unless STRICT= is given
#   make install PREFIX=/usr/local   header, libraries, pkg-config file, programs, man pages and documents; DESTDIR is
#                                    put in front
#   make dist                        target/host/airstate-VERSION-MACHINE.tar.gz with all that is installed, for hosts
#                                    that have no prover; neither is made where a tool could not be built
#
# rt, the Rattle kit's command, is needed unless STATIC and LISTING name what it built elsewhere. For make test VECTORS
# does so too; where it names nothing the weights are left out.

PREFIX ?= /usr/local
DESTDIR ?=
BINDIR ?= $(PREFIX)/bin
INCLUDEDIR ?= $(PREFIX)/include
LIBDIR ?= $(PREFIX)/lib
MANDIR ?= $(PREFIX)/share/man
DOCDIR ?= $(PREFIX)/share/doc/airstate
DATADIR ?= $(PREFIX)/share/airstate
LIBS ?=
BUILD ?= target/host
STRICT ?= 1
V ?=

VERSION := $(shell sed -n 's/^\#define EAS_VERSION "\(.*\)"/\1/p' include/airstate.h)
MAJOR := $(firstword $(subst ., ,$(VERSION)))

# What host/prove.sh has rt prove and build, and copies here.
PROVED_STATIC = target/staticlib/libairstate.a
PROVED_LISTING = target/bin/listing
PROVED_VECTORS = target/bin/vectors
STATIC ?= $(PROVED_STATIC)
LISTING ?= $(PROVED_LISTING)
VECTORS ?= $(PROVED_VECTORS)
SHARED = $(BUILD)/libairstate.so.$(VERSION)
CRATES = crates.txt $(shell find crates -name out -prune -o -name '*.rt' -print -o -name '*.antt' -print)

HOST = $(MAKE) -C host LIB=$(abspath $(STATIC)) BUILD=$(abspath $(BUILD)) LISTING=$(abspath $(LISTING)) \
	VECTORS=$(abspath $(VECTORS)) SHARED=$(abspath $(SHARED))

.PHONY: all packages tools run install uninstall test dist clean

all: $(STATIC) $(SHARED) $(LISTING) tools

packages:
	@host/packages.sh

# Each is written after all crates below it are proved, again where one of their files is newer.
$(PROVED_STATIC): $(CRATES)
	@host/prove.sh airstate >&2
	@touch $@

$(PROVED_LISTING): $(CRATES) | $(PROVED_STATIC)
	@host/prove.sh listing >&2
	@touch $@

$(PROVED_VECTORS): $(CRATES) | $(STATIC) $(LISTING)
	@host/prove.sh vectors >&2
	@touch $@

# Only the header's entries are visible in the shared library.
$(SHARED): $(STATIC) host/airstate.map
	@mkdir -p $(@D)
	$(if $(filter-out 0, $(V)),,@echo 'LD $(@F)'; )$(CC) -shared $(LDFLAGS) -Wl,-soname,libairstate.so.$(MAJOR) \
		-Wl,--version-script=host/airstate.map -Wl,-z,defs \
		-Wl,--whole-archive $(STATIC) -Wl,--no-whole-archive $(LIBS) -o $@

tools: $(STATIC)
	+@$(HOST) tools

run:
	@host/prove.sh listing >&2
	@mkdir -p target/run; cp host/samples/sample.eas target/run/sheet.eas
	@cd target/run && ../bin/listing < ../../crates/listing/stdin

# PC_PREFIX is what the pkg-config file takes for the prefix.
PC_PREFIX ?= $(PREFIX)
MAN1 = $(wildcard man/*.1)
MAN3 = $(wildcard man/*.3)
DOCUMENTS = $(wildcard README.md CHANGELOG.md crates/README.md host/README.md docs/*.md docs/*.svg docs/landings/*.md)

install: all
	+@$(HOST) every-tool
	install -d $(addprefix $(DESTDIR), $(BINDIR) $(INCLUDEDIR) $(LIBDIR)/pkgconfig $(MANDIR)/man1 $(MANDIR)/man3 \
		$(DOCDIR)/examples $(DATADIR)/samples)
	install -m 644 include/airstate.h $(DESTDIR)$(INCLUDEDIR)/airstate.h
	install -m 644 $(STATIC) $(DESTDIR)$(LIBDIR)/libairstate.a
	install -m 755 $(SHARED) $(DESTDIR)$(LIBDIR)/libairstate.so.$(VERSION)
	ln -sf libairstate.so.$(VERSION) $(DESTDIR)$(LIBDIR)/libairstate.so.$(MAJOR)
	ln -sf libairstate.so.$(MAJOR) $(DESTDIR)$(LIBDIR)/libairstate.so
	sed -e 's|@PREFIX@|$(PC_PREFIX)|' -e 's|@INCLUDEDIR@|$(patsubst $(PREFIX)/%,$${prefix}/%,$(INCLUDEDIR))|' \
		-e 's|@LIBDIR@|$(patsubst $(PREFIX)/%,$${prefix}/%,$(LIBDIR))|' -e 's|@VERSION@|$(VERSION)|' host/airstate.pc.in \
		> $(DESTDIR)$(LIBDIR)/pkgconfig/airstate.pc
	install -m 755 $(LISTING) $(DESTDIR)$(BINDIR)/airstate-listing
	+@$(HOST) install-tools TO=$(DESTDIR)$(BINDIR)
	install -m 644 $(MAN1) $(DESTDIR)$(MANDIR)/man1
	install -m 644 $(MAN3) $(DESTDIR)$(MANDIR)/man3
	for d in $(DOCUMENTS); do install -D -m 644 $$d $(DESTDIR)$(DOCDIR)/$$d || exit 1; done
	install -m 644 host/tools/example.c $(DESTDIR)$(DOCDIR)/examples
	install -m 644 $(wildcard host/samples/*.csv host/samples/*.eas) $(DESTDIR)$(DATADIR)/samples

uninstall:
	rm -f $(DESTDIR)$(INCLUDEDIR)/airstate.h $(DESTDIR)$(LIBDIR)/pkgconfig/airstate.pc
	rm -f $(DESTDIR)$(LIBDIR)/libairstate.a $(DESTDIR)$(LIBDIR)/libairstate.so*
	rm -f $(addprefix $(DESTDIR)$(BINDIR)/airstate-, listing sheet plot checklist)
	rm -f $(addprefix $(DESTDIR)$(MANDIR)/man1/, $(notdir $(MAN1))) $(addprefix $(DESTDIR)$(MANDIR)/man3/, $(notdir $(MAN3)))
	rm -rf $(DESTDIR)$(DOCDIR) $(DESTDIR)$(DATADIR)

# The tree of an installation that may stand anywhere.
RELEASE = airstate-$(VERSION)-$(shell uname -m)

dist:
	rm -rf $(BUILD)/$(RELEASE) $(BUILD)/$(RELEASE).tar.gz
	$(MAKE) install DESTDIR=$(abspath $(BUILD))/$(RELEASE) PREFIX= PC_PREFIX='$$$${pcfiledir}/../..'
	tar -C $(BUILD) --owner=0 --group=0 --sort=name -czf $(BUILD)/$(RELEASE).tar.gz $(RELEASE)
	@echo $(BUILD)/$(RELEASE).tar.gz

test: all $(VECTORS)
	+$(HOST) test STRICT=$(STRICT)
	STRICT=$(STRICT) host/tests/install_test.sh $(abspath $(STATIC)) $(abspath $(LISTING)) $(abspath $(BUILD))
	STRICT=$(STRICT) host/tests/man_test.sh
	STRICT=$(STRICT) host/tests/build_test.sh $(abspath $(STATIC)) $(abspath $(LISTING))

clean:
	rm -rf $(BUILD)
