# make                builds target/lib/libstakebook.a and libstakebook.so from the proved archive target/staticlib/libcapi.a. If that is not there,
#                     `tools/build.sh capi` makes it, which proves the crates below it: minutes the first time
# make install        PREFIX=/usr/local DESTDIR=: libraries, header, pkg-config file, manual pages, and those of the programs that are there
# make deb            target/stakebook_VERSION_ARCHITECTURE.deb, with all programs
# make check-install  tools/check_install.sh: all of it, in folders of its own
# docs/INSTALL.md says more. The version is the header's, and so are the exported functions.

PREFIX ?= /usr/local
DESTDIR ?=
BINDIR ?= $(PREFIX)/bin
LIBDIR ?= $(PREFIX)/lib
INCLUDEDIR ?= $(PREFIX)/include
MANDIR ?= $(PREFIX)/share/man
DOCDIR ?= $(PREFIX)/share/doc/stakebook
PYTHONDIR ?= $(PREFIX)/lib/python3/dist-packages

OBJCOPY ?= objcopy
INSTALL ?= install
CARGO ?= cargo

HEADER := include/stakebook.h
VERSION := $(shell sed -n 's/^.define STAKEBOOK_VERSION "\(.*\)"$$/\1/p' $(HEADER))
MAJOR := $(firstword $(subst ., ,$(VERSION)))
CAPI := target/staticlib/libcapi.a
LIB := target/lib
SONAME := libstakebook.so.$(MAJOR)
SHARED := libstakebook.so.$(VERSION)
# pages by section; each is filled in from packaging/man
MAN1 := $(patsubst packaging/man/%,target/man/%,$(wildcard packaging/man/*.1))
MAN3 := $(patsubst packaging/man/%,target/man/%,$(wildcard packaging/man/*.3))
# of the Python package, what is meant to be installed: no cache, no editor's file
PYTHON_FILES = $(sort $(foreach kind,*.py *.txt *.css *.html py.typed,$(wildcard python/stakebook/$(kind))))
DOCUMENTS = $(wildcard docs/INSTALL.md docs/JOURNAL.md docs/PYTHON.md docs/SEASON.md docs/STAKE.md)
EXAMPLES = $(wildcard examples/pit.csv examples/pits.csv examples/c/season.c examples/c/printed.h)

.DELETE_ON_ERROR:
.SUFFIXES:

.PHONY: all
all: $(LIB)/libstakebook.a $(LIB)/libstakebook.so $(MAN1) $(MAN3)

# no prerequisites: it is made where it is missing, and is otherwise taken as it stands
$(CAPI):
	tools/build.sh capi

# ---- the library

# the documented functions, by name, as the header declares them: the one list of what is exported
$(LIB)/functions: $(HEADER) packaging/functions.sh
	@mkdir -p $(@D)
	CC="$(CC)" packaging/functions.sh $(HEADER) >$@

$(LIB)/stakebook.map: $(LIB)/functions packaging/stakebook.map.in Makefile
	sed -e 's/@MAJOR@/$(MAJOR)/' -e '/@FUNCTIONS@/{' -e 'r $(LIB)/functions' -e 'd' -e '}' packaging/stakebook.map.in | \
	    sed 's/^stakebook_.*/    &;/' >$@

# The kit's objects as one, in which only these functions are global. LLVM's table of addresses goes: it counts by a list of symbols that is written anew.
$(LIB)/stakebook.o: $(CAPI) $(LIB)/functions Makefile
	$(LD) -r --whole-archive $(CAPI) -o $@
	$(OBJCOPY) --keep-global-symbols=$(LIB)/functions --remove-section=.llvm_addrsig $@

$(LIB)/libstakebook.a: $(LIB)/stakebook.o
	rm -f $@
	$(AR) rcsD $@ $<

# No start files: there is nothing to initialise, and so the bytes come from the objects and the linker alone.
$(LIB)/$(SHARED): $(LIB)/stakebook.o $(LIB)/stakebook.map
	$(CC) -shared -nostartfiles -o $@ $< -Wl,-soname,$(SONAME) -Wl,--version-script=$(LIB)/stakebook.map -Wl,-z,defs -Wl,-z,relro -Wl,-z,now \
	    -Wl,-z,noexecstack -Wl,--as-needed -Wl,--hash-style=gnu -Wl,--build-id=sha1 -Wl,--strip-all $(LDFLAGS)

# Copies here, and links where it is installed: `rt ci` takes no link in the checkout.
$(LIB)/$(SONAME): $(LIB)/$(SHARED)
	cp $(LIB)/$(SHARED) $@

$(LIB)/libstakebook.so: $(LIB)/$(SONAME)
	cp $(LIB)/$(SONAME) $@

# ---- manual pages: the version, the functions and the words of the refusals are filled in

target/man/%: packaging/man/% $(LIB)/functions include/refusals.txt packaging/page.sh
	@mkdir -p $(@D)
	packaging/page.sh $< $(VERSION) $(LIB)/functions include/refusals.txt >$@

# ---- installation

# the Rust program that runs lists of calls as text
.PHONY: journal
journal: $(CAPI)
	$(CARGO) build --release --quiet -p journal --bin journal

JOURNAL = target-rust/release/journal

# The Python package gets a link to the library it was installed with, so that it finds that one under any PREFIX.
.PHONY: install
install: all
	$(INSTALL) -d -m 755 $(DESTDIR)$(LIBDIR)/pkgconfig $(DESTDIR)$(INCLUDEDIR) $(DESTDIR)$(BINDIR) $(DESTDIR)$(MANDIR)/man1 $(DESTDIR)$(MANDIR)/man3 \
	    $(DESTDIR)$(DOCDIR)/examples
	$(INSTALL) -m 644 $(LIB)/libstakebook.a $(LIB)/$(SHARED) $(DESTDIR)$(LIBDIR)
	ln -sf $(SHARED) $(DESTDIR)$(LIBDIR)/$(SONAME)
	ln -sf $(SONAME) $(DESTDIR)$(LIBDIR)/libstakebook.so
	$(INSTALL) -m 644 $(HEADER) $(DESTDIR)$(INCLUDEDIR)
	sed -e 's|@PREFIX@|$(PREFIX)|' -e 's|@LIBDIR@|$(LIBDIR)|' -e 's|@INCLUDEDIR@|$(INCLUDEDIR)|' -e 's|@VERSION@|$(VERSION)|' packaging/stakebook.pc.in \
	    >$(DESTDIR)$(LIBDIR)/pkgconfig/stakebook.pc
	chmod 644 $(DESTDIR)$(LIBDIR)/pkgconfig/stakebook.pc
	$(INSTALL) -m 644 $(MAN3) $(DESTDIR)$(MANDIR)/man3
	$(INSTALL) -m 644 NOTICE $(DOCUMENTS) $(DESTDIR)$(DOCDIR)
	$(if $(EXAMPLES),$(INSTALL) -m 644 $(EXAMPLES) $(DESTDIR)$(DOCDIR)/examples)
	@for program in target/bin/stakebook:stakebook $(JOURNAL):journal bin/stake:stake; do \
	    if [ -f "$${program%:*}" ]; then \
	        $(INSTALL) -m 755 "$${program%:*}" "$(DESTDIR)$(BINDIR)/$${program#*:}" && \
	        $(INSTALL) -m 644 "target/man/$${program#*:}.1" "$(DESTDIR)$(MANDIR)/man1" || exit 1; \
	    else \
	        echo "install: $${program%:*} is not built, and $${program#*:} is left out (docs/INSTALL.md)" >&2; \
	    fi; \
	done
	$(if $(PYTHON_FILES),$(INSTALL) -d -m 755 $(DESTDIR)$(PYTHONDIR)/stakebook && $(INSTALL) -m 644 $(PYTHON_FILES) $(DESTDIR)$(PYTHONDIR)/stakebook && \
	    ln -sf "$$(realpath -m --relative-to=$(PYTHONDIR)/stakebook $(LIBDIR)/$(SONAME))" $(DESTDIR)$(PYTHONDIR)/stakebook/$(SONAME))

# the Debian package has every part: one that is missing is an error there
.PHONY: deb
deb: all journal
	packaging/build_deb.sh $(VERSION) $(JOURNAL)

.PHONY: check-install
check-install:
	tools/check_install.sh

.PHONY: clean
clean:
	rm -rf $(LIB) target/man target/deb target/stakebook_*.deb
