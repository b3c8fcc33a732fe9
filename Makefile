# Builds and installs the programs, the C library, the SQLite extension, the manual pages and completions of shells:
#   make                             proves and builds what is missing or older than its sources
#   make install                     does the same, and installs everything below PREFIX, by default /usr/local
#   make uninstall                   removes the files that `make install` with the same settings installs
# BINDIR, LIBDIR, INCLUDEDIR, MANDIR, DATADIR and ZSHDIR choose other folders than those below PREFIX. DESTDIR is
# prepended to each path, and no installed file contains it. TARGET is what is built for, as c/target says. C_LIBRARY is
# a folder of c/build, and VERS and VERSIONS are the programs; if set, they are installed unchanged. EXTENSION is the
# file that the SQLite extension is built into. FROM_HELP is the folder for the manual page and the completions of
# `versions`, which docs/man/from-help makes; VERSIONS_HERE is the program that it asks, which runs on this machine. A
# release has all of these built, in a folder `built` beside this file, and installs that.
PREFIX ?= /usr/local
BINDIR ?= $(PREFIX)/bin
LIBDIR ?= $(PREFIX)/lib
INCLUDEDIR ?= $(PREFIX)/include
MANDIR ?= $(PREFIX)/share/man
# For completions: bash and fish find them below DATADIR, zsh in ZSHDIR.
DATADIR ?= $(PREFIX)/share
ZSHDIR ?= $(DATADIR)/zsh/site-functions
TARGET ?= x86_64-linux-gnu

# What is built for another machine lies in a folder of its own.
of_target := $(addprefix /,$(filter-out x86_64-linux-gnu,$(TARGET)))

# sources CRATE: the files of a crate and of those that it stands on
sources = $(shell find $(addprefix crates/,$(shell c/crates $(1))) -name out -prune -o -type f -print)

ifneq ($(wildcard built/vers),)
C_LIBRARY ?= built
VERS ?= built/vers
VERSIONS ?= built/versions
EXTENSION ?= built/versions.so
FROM_HELP ?= built
else
EXTENSION ?= sqlite/out$(of_target)/versions.so
FROM_HELP ?= docs/man/out
made := extension from_help
endif

ifndef C_LIBRARY
C_LIBRARY := c/out$(of_target)
header := c/versions.h
built := $(C_LIBRARY)/versions.pc
$(built): crates.txt c/build c/crates c/target c/pkg-config-file c/declarations.py c/versions.3.in c/versions.c c/versions.h \
  $(call sources,versions_c)
	c/build --target $(TARGET) $(C_LIBRARY)
else
header := $$C_LIBRARY/versions.h
endif

ifndef VERS
VERS := c/out$(of_target)/vers
built += $(VERS)
$(VERS): crates.txt c/program c/target c/crates $(call sources,vers)
	c/program --target $(TARGET) vers $(VERS)
endif

# The program for people.
of_versions = crates.txt c/program c/target c/crates $(call sources,versions_program)
ifndef VERSIONS
VERSIONS := c/out$(of_target)/versions
built += $(VERSIONS)
$(VERSIONS): $(of_versions)
	c/program --target $(TARGET) versions_program $(VERSIONS)
endif
ifeq ($(of_target),)
VERSIONS_HERE ?= $(VERSIONS)
endif
ifndef VERSIONS_HERE
VERSIONS_HERE := c/out/versions
built += $(VERSIONS_HERE)
$(VERSIONS_HERE): $(of_versions)
	c/program versions_program $(VERSIONS_HERE)
endif

# Two proofs cannot run in one crate at once.
.NOTPARALLEL:
.DEFAULT_GOAL := all
.PHONY: all extension from_help folders install uninstall
all: $(made)

# It takes a second and contains the library, which may be another one each time: so it is built each time.
extension: $(built)
	C_LIBRARY="$$C_LIBRARY" sqlite/build --target $(TARGET) "$$(dirname "$$EXTENSION")"

from_help: $(built)
	docs/man/from-help "$$VERSIONS_HERE" "$$FROM_HELP"

# Folders reach the shell as variables, so that it takes each as it is.
export PREFIX BINDIR LIBDIR INCLUDEDIR MANDIR DATADIR ZSHDIR DESTDIR C_LIBRARY VERS VERSIONS EXTENSION
export VERSIONS_HERE FROM_HELP
bin := "$$DESTDIR$$BINDIR"
lib := "$$DESTDIR$$LIBDIR"
include := "$$DESTDIR$$INCLUDEDIR"
man := "$$DESTDIR$$MANDIR"
data := "$$DESTDIR$$DATADIR"
zsh := "$$DESTDIR$$ZSHDIR"
completed := $(data)/bash-completion/completions/versions $(data)/fish/vendor_completions.d/versions.fish \
  $(zsh)/_versions
pc := c/pkg-config-file "$(header)" "$$LIBDIR/pkgconfig" "$$PREFIX" "$$LIBDIR" "$$INCLUDEDIR"
library := "libversions.so.$$(sed -n 's/^\#define VERSIONS_VERSION "\(.*\)"$$/\1/p' "$(header)")"

# What can't be installed is refused before anything is.
folders:
	@$(pc) >/dev/null

install: folders all
	install -d $(bin) $(lib)/pkgconfig $(lib)/sqlite3 $(include) $(man)/man1 $(man)/man3
	install -m 755 "$$VERS" $(bin)/vers
	install -m 644 "$$C_LIBRARY/versions.h" $(include)/versions.h
	install -m 644 "$$C_LIBRARY/libversions.a" $(lib)/libversions.a
	install -m 644 "$$C_LIBRARY/libversions.so.0" $(lib)/$(library)
	ln -sf $(library) $(lib)/libversions.so.0
	ln -sf libversions.so.0 $(lib)/libversions.so
	$(pc) | install -m 644 /dev/stdin $(lib)/pkgconfig/versions.pc
	install -m 644 "$$EXTENSION" $(lib)/sqlite3/versions.so
	install -m 644 docs/man/vers.1 $(man)/man1/vers.1
	install -m 644 "$$C_LIBRARY/versions.3" $(man)/man3/versions.3
	install -m 755 "$$VERSIONS" $(bin)/versions
	install -m 644 "$$FROM_HELP/versions.1" $(man)/man1/versions.1
	install -d $(data)/bash-completion/completions $(data)/fish/vendor_completions.d $(zsh)
	install -m 644 "$$FROM_HELP/versions.bash" $(data)/bash-completion/completions/versions
	install -m 644 "$$FROM_HELP/versions.fish" $(data)/fish/vendor_completions.d/versions.fish
	install -m 644 "$$FROM_HELP/_versions" $(zsh)/_versions

uninstall:
	rm -f $(bin)/vers $(include)/versions.h $(lib)/libversions.a $(lib)/libversions.so $(lib)/libversions.so.0 \
	  $(lib)/$(library) $(lib)/pkgconfig/versions.pc $(lib)/sqlite3/versions.so $(man)/man1/vers.1 $(man)/man3/versions.3 \
	  $(bin)/versions $(man)/man1/versions.1 $(completed)
