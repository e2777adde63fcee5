# Builds and installs what C programs and shells use: the library, its header, the tool and the manual pages.
#
#     make                              proves and builds; minutes, the first time
#     make install PREFIX=/usr/local    make uninstall PREFIX=/usr/local    make check-install
#
# The archive is proved and written by `rt`, the command of the Rattle kit, unless MUON_LIB_DIR says where one is, as libmuon.a or as
# libcapi.a: then nothing is proved. A relative MUON_LIB_DIR counts from here.
# DESTDIR stands in front of every path that is written to, and in no file that is written.
# No path that is written to may have a space; all but DESTDIR must be absolute, since muon.pc tells them.
PREFIX = /usr/local
BINDIR = $(PREFIX)/bin
LIBDIR = $(PREFIX)/lib
INCLUDEDIR = $(PREFIX)/include
MANDIR = $(PREFIX)/share/man
DOCDIR = $(PREFIX)/share/doc/muon
INSTALL = install

WRITTEN = BINDIR LIBDIR INCLUDEDIR MANDIR DOCDIR
$(foreach name,PREFIX DESTDIR $(WRITTEN),$(if $(word 2,x$($(name))x),$(error $(name) has a space: $($(name)))))
$(foreach name,PREFIX $(WRITTEN),$(if $(filter /%,$($(name))/),,$(error $(name) is not an absolute path: $($(name)))))

ifdef MUON_LIB_DIR
ARCHIVES = $(MUON_LIB_DIR)
else
ARCHIVES = $(CURDIR)/crates/capi/out
endif
# as it is installed, or else as rt writes it
ARCHIVE = $(shell for name in libmuon.a libcapi.a; do if [ -f '$(ARCHIVES)/'$$name ]; then echo '$(ARCHIVES)/'$$name; break; fi; done)
VERSION := $(shell sed -n 's/^.define MUON_VERSION "\(.*\)"$$/\1/p' include/muon.h)
# what the header declares and defines; the page of each is muon(3)
CALLS := $(shell grep -oE '^[A-Za-z][A-Za-z0-9_ *]*muon_[a-z0-9_]+' include/muon.h | sed 's/.*[ *]//')

DIRECTORIES = $(LIBDIR)/pkgconfig $(INCLUDEDIR) $(BINDIR) $(MANDIR)/man1 $(MANDIR)/man3 $(DOCDIR)
FILES = $(LIBDIR)/libmuon.a $(LIBDIR)/pkgconfig/muon.pc $(INCLUDEDIR)/muon.h $(BINDIR)/muon-tool \
    $(MANDIR)/man1/muon.1 $(MANDIR)/man1/muon-tool.1 $(MANDIR)/man3/muon.3 $(DOCDIR)/SETTINGS.md $(CALLS:%=$(MANDIR)/man3/%.3)

all: archive tool

archive:
ifdef MUON_LIB_DIR
	@test -n '$(ARCHIVE)' || { echo 'no libmuon.a and no libcapi.a in $(ARCHIVES)' >&2; exit 1; }
else
	cd crates/capi && rt lib
endif

tool: archive
	MUON_LIB_DIR="$$(cd '$(ARCHIVES)' && pwd)" CARGO_TARGET_DIR='$(CURDIR)/target/rust' \
	    cargo build --release --offline --manifest-path rust/Cargo.toml --bin muon-tool

install: all
	$(INSTALL) -d $(DIRECTORIES:%='$(DESTDIR)%')
	$(INSTALL) -m 644 '$(ARCHIVE)' '$(DESTDIR)$(LIBDIR)/libmuon.a'
	$(INSTALL) -m 644 include/muon.h '$(DESTDIR)$(INCLUDEDIR)/muon.h'
	$(INSTALL) -m 755 target/rust/release/muon-tool '$(DESTDIR)$(BINDIR)/muon-tool'
	$(INSTALL) -m 644 docs/man/muon.1 '$(DESTDIR)$(MANDIR)/man1/muon.1'
	$(INSTALL) -m 644 docs/man/muon.3 '$(DESTDIR)$(MANDIR)/man3/muon.3'
	$(INSTALL) -m 644 docs/SETTINGS.md '$(DESTDIR)$(DOCDIR)/SETTINGS.md'
	echo '.so man1/muon.1' >'$(DESTDIR)$(MANDIR)/man1/muon-tool.1'
	for call in $(CALLS); do echo '.so man3/muon.3' >'$(DESTDIR)$(MANDIR)/man3/'$$call.3 || exit 1; done
	printf '%s\n' 'prefix=$(PREFIX)' 'libdir=$(LIBDIR)' 'includedir=$(INCLUDEDIR)' '' 'Name: muon' \
	    'Description: A proved reader of MUON plain text' 'Version: $(VERSION)' \
	    'Libs: -L$${libdir} -lmuon' 'Cflags: -I$${includedir}' >'$(DESTDIR)$(LIBDIR)/pkgconfig/muon.pc'

uninstall:
	rm -f $(FILES:%='$(DESTDIR)%')
	rmdir '$(DESTDIR)$(DOCDIR)' 2>/dev/null || :

check-install:
	tests/install

.PHONY: all archive tool install uninstall check-install
