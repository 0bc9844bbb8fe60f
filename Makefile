# Builds, tests and installs elfsee. It calls ./build, library/build, ./check, install and rm.
#
#   make                  proves and builds the program, if it is not built
#   make library          the same for the library
#   make check            proves and tests everything
#   make install          installs the program, its man page and its completions; and if the library
#                         was built, that too
#   make install-program  installs only the program
#   make install-library  builds the library if it is not built, and installs it with its header, its
#                         man page, a file for pkg-config and the module for Python
#   make uninstall        removes all of them
#
# PREFIX (/usr/local) is where they are installed, DESTDIR what is before that for packages. The other
# variables are those of the GNU coding standards.

SHELL = /bin/sh
PREFIX = /usr/local
prefix = $(PREFIX)
exec_prefix = $(prefix)
bindir = $(exec_prefix)/bin
libdir = $(exec_prefix)/lib
pkgconfigdir = $(libdir)/pkgconfig
includedir = $(prefix)/include
datarootdir = $(prefix)/share
datadir = $(datarootdir)
mandir = $(datarootdir)/man
man1dir = $(mandir)/man1
man3dir = $(mandir)/man3
bashcompdir = $(datadir)/bash-completion/completions
zshcompdir = $(datadir)/zsh/site-functions
fishcompdir = $(datadir)/fish/vendor_completions.d
# Where Python has modules below the prefix, as Python itself says; without it, or if this is empty, the module is
# not installed.
PYTHON = python3
pythondir = $(shell $(PYTHON) -c 'import site; print(site.getsitepackages(["$(exec_prefix)"])[-1])' 2>/dev/null)

INSTALL = install
INSTALL_PROGRAM = $(INSTALL) -m 755
INSTALL_DATA = $(INSTALL) -m 644

# The loader finds the shared library by a list of its own. Root rebuilds it if the library goes into
# the system itself; others and packages have to see to it.
LDCONFIG = ldconfig
LOADER_LEARNS = if [ -z '$(DESTDIR)' ] && [ "$$(id -u)" = 0 ]; then $(LDCONFIG) || true; fi

# What pkg-config gives; elfsee_version and `elfsee version` give the same. tests/gate/one_truth.py compares them.
library_version = 0.1.0

.PHONY: all library check install install-program install-library install-strip uninstall

all:
	./build

library:
	library/build

check:
	./check

install: install-program
	if [ -e library/out/libelfsee.so.0 ]; then $(MAKE) install-library; fi

install-program: all
	$(INSTALL) -d '$(DESTDIR)$(bindir)' '$(DESTDIR)$(man1dir)' '$(DESTDIR)$(bashcompdir)' \
	    '$(DESTDIR)$(zshcompdir)' '$(DESTDIR)$(fishcompdir)'
	$(INSTALL_PROGRAM) crates/elfsee/out/elfsee '$(DESTDIR)$(bindir)/elfsee'
	$(INSTALL_DATA) man/elfsee.1 '$(DESTDIR)$(man1dir)/elfsee.1'
	$(INSTALL_DATA) completions/elfsee.bash '$(DESTDIR)$(bashcompdir)/elfsee'
	$(INSTALL_DATA) completions/_elfsee '$(DESTDIR)$(zshcompdir)/_elfsee'
	$(INSTALL_DATA) completions/elfsee.fish '$(DESTDIR)$(fishcompdir)/elfsee.fish'

install-library: library
	$(INSTALL) -d '$(DESTDIR)$(includedir)' '$(DESTDIR)$(libdir)' '$(DESTDIR)$(pkgconfigdir)' \
	    '$(DESTDIR)$(man3dir)'
	$(INSTALL_DATA) library/elfsee.h '$(DESTDIR)$(includedir)/elfsee.h'
	$(INSTALL_DATA) library/out/libelfsee.a '$(DESTDIR)$(libdir)/libelfsee.a'
	$(INSTALL_DATA) library/out/libelfsee.so.0 '$(DESTDIR)$(libdir)/libelfsee.so.0'
	ln -sf libelfsee.so.0 '$(DESTDIR)$(libdir)/libelfsee.so'
	sed -e 's|@prefix@|$(prefix)|' -e 's|@exec_prefix@|$(exec_prefix)|' -e 's|@libdir@|$(libdir)|' \
	    -e 's|@includedir@|$(includedir)|' -e 's|@version@|$(library_version)|' \
	    library/elfsee.pc.in >'$(DESTDIR)$(pkgconfigdir)/elfsee.pc'
	chmod 644 '$(DESTDIR)$(pkgconfigdir)/elfsee.pc'
	$(INSTALL_DATA) man/elfsee.3 '$(DESTDIR)$(man3dir)/elfsee.3'
	folder='$(pythondir)'; if [ -n "$$folder" ]; then \
	    $(INSTALL) -d '$(DESTDIR)'"$$folder/elfsee" && \
	    $(INSTALL_DATA) library/python/elfsee/*.py library/python/elfsee/py.typed '$(DESTDIR)'"$$folder/elfsee"; fi
	$(LOADER_LEARNS)

install-strip:
	$(MAKE) INSTALL_PROGRAM='$(INSTALL_PROGRAM) -s' install

uninstall:
	rm -f '$(DESTDIR)$(bindir)/elfsee' '$(DESTDIR)$(man1dir)/elfsee.1' \
	    '$(DESTDIR)$(bashcompdir)/elfsee' '$(DESTDIR)$(zshcompdir)/_elfsee' \
	    '$(DESTDIR)$(fishcompdir)/elfsee.fish' '$(DESTDIR)$(includedir)/elfsee.h' \
	    '$(DESTDIR)$(libdir)/libelfsee.a' '$(DESTDIR)$(libdir)/libelfsee.so.0' \
	    '$(DESTDIR)$(libdir)/libelfsee.so' '$(DESTDIR)$(pkgconfigdir)/elfsee.pc' \
	    '$(DESTDIR)$(man3dir)/elfsee.3'
	folder='$(pythondir)'; if [ -n "$$folder" ]; then rm -rf '$(DESTDIR)'"$$folder/elfsee"; fi
	$(LOADER_LEARNS)
