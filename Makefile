# Builds the library, the command, the examples and the manual pages, installs them, and runs the tests.
#
#   make                      the archive, the shared library, the command, the examples, the manual pages
#   make install prefix=DIR   installs all of that, the headers and boardid.pc (see docs/C-INTERFACE.md); proves nothing
#   make uninstall prefix=DIR takes it away again
#   make check                builds and runs the tests
#   make headers              makes the headers anew from include/boardid.h.in
#   make clean                removes what was built, but for the archive
#
# LIB=FILE takes an archive that is already built, and builds none. LDLIBS has what it needs to link.
# The folders are GNU's: prefix, exec_prefix, bindir, libdir, includedir, datarootdir, datadir, mandir, docdir, and pkgconfigdir and
# bashcompletiondir; PREFIX, INCLUDEDIR, LIBDIR and DOCDIR are taken too. DESTDIR=DIR puts all of it below DIR.

# include/boardid.h.in has the version. Its first number is the newest edition that the library knows; the second counts the changes since that
# brought no new edition.
VERSION := $(shell sed -n 's/^@version //p' include/boardid.h.in)
NEWEST := $(shell sed -n 's/^@newest //p' include/boardid.h.in)
EDITIONS := $(shell seq $(NEWEST))

PREFIX ?= /usr/local
prefix = $(PREFIX)
exec_prefix = $(prefix)
bindir = $(exec_prefix)/bin
INCLUDEDIR ?= $(prefix)/include
includedir = $(INCLUDEDIR)
LIBDIR ?= $(exec_prefix)/lib
libdir = $(LIBDIR)
datarootdir = $(prefix)/share
datadir = $(datarootdir)
mandir = $(datarootdir)/man
DOCDIR ?= $(datarootdir)/doc/boardid
docdir = $(DOCDIR)
pkgconfigdir = $(libdir)/pkgconfig
bashcompletiondir = $(datadir)/bash-completion/completions

INSTALL ?= install
INSTALL_PROGRAM ?= $(INSTALL)
INSTALL_DATA ?= $(INSTALL) -m 644
PKG_CONFIG ?= pkg-config
SCDOC ?= scdoc
PYTHON ?= /usr/bin/python3

CFLAGS ?= -O2 -g
WARNINGS := -Wall -Wextra -Wpedantic
OUT := target/c
MAN := target/man

# The shared library's file; its first number, that of the soname, changes only where programs would have to be linked anew.
SONAME := libboardid.so.1
SHARED := $(SONAME).$(VERSION)

HEADERS := include/boardid.h $(EDITIONS:%=include/edition-%/boardid.h)
EXAMPLES := list edit vendor backup room

# The command, where its sources are there and jansson is.
COMMAND_SOURCES := $(wildcard command/*.c)
ifneq ($(COMMAND_SOURCES),)
ifeq ($(shell $(PKG_CONFIG) --exists jansson 2>/dev/null && echo yes),yes)
COMMAND := $(OUT)/boardid
JANSSON_CFLAGS := $(shell $(PKG_CONFIG) --cflags jansson)
JANSSON_LIBS := $(shell $(PKG_CONFIG) --libs jansson)
else
LEFT_OUT += no-command
endif
endif

# The manual pages, where their sources are there and scdoc is.
PAGE_SOURCES := $(wildcard man/*.scd)
ifneq ($(PAGE_SOURCES),)
ifneq ($(shell command -v $(SCDOC)),)
PAGES := $(PAGE_SOURCES:man/%.scd=$(MAN)/%)
else
LEFT_OUT += no-pages
endif
endif

all: shared $(COMMAND) $(EXAMPLES:%=$(OUT)/%) $(PAGES) $(LEFT_OUT)

shared: $(OUT)/$(SHARED) $(OUT)/$(SONAME) $(OUT)/libboardid.so

no-command:
	@echo 'The command is left out: pkg-config finds no jansson (Debian: libjansson-dev).' >&2

no-pages:
	@echo 'The manual pages are left out: there is no $(SCDOC) (Debian: scdoc).' >&2

ifeq ($(origin LIB), undefined)
LIB := target/staticlib/libboardid.a

# It calls the kit only where the sources have changed.
$(LIB): FORCE
	@library/build
endif

# The checksum of the archive that all below are made from; it is written where it changes, so that another archive, also an older one, makes them anew.
ARCHIVE := $(OUT)/archive.sum

$(ARCHIVE): $(LIB) FORCE
	@mkdir -p $(OUT)
	@sum=$$(cksum <'$(LIB)') && { [ "$$sum" = "$$(cat $@ 2>/dev/null)" ] || echo "$$sum" >$@; }

$(OUT)/$(SHARED): $(ARCHIVE) library/boardid.map
	@mkdir -p $(OUT)
	$(CC) -shared $(CFLAGS) $(LDFLAGS) -Wl,-soname,$(SONAME) -Wl,--version-script=library/boardid.map -Wl,--no-undefined-version \
	    -Wl,-z,relro -Wl,-z,now -Wl,-z,defs -o $@ -Wl,--whole-archive $(LIB) -Wl,--no-whole-archive $(LDLIBS)

$(OUT)/$(SONAME) $(OUT)/libboardid.so: $(OUT)/$(SHARED)
	ln -sf $(SHARED) $@

$(EXAMPLES:%=$(OUT)/%): $(OUT)/%: examples/%.c examples/image_file.h examples/whole_file.h $(HEADERS) $(ARCHIVE)
	@mkdir -p $(OUT)
	$(CC) -std=c99 $(WARNINGS) $(CPPFLAGS) $(CFLAGS) -Iinclude $(LDFLAGS) -o $@ $< $(LIB) $(LDLIBS)

COMMAND_OBJECTS := $(COMMAND_SOURCES:command/%.c=$(OUT)/command/%.o)

$(COMMAND_OBJECTS): $(OUT)/command/%.o: command/%.c
	@mkdir -p $(OUT)/command
	$(CC) -std=gnu11 $(WARNINGS) $(CPPFLAGS) $(CFLAGS) -Iinclude $(JANSSON_CFLAGS) -MMD -MP -c -o $@ $<

-include $(COMMAND_OBJECTS:.o=.d)

# It has the library in itself, so that it runs wherever it is put.
$(OUT)/boardid: $(COMMAND_OBJECTS) $(ARCHIVE)
	$(CC) $(CFLAGS) $(LDFLAGS) -o $@ $(COMMAND_OBJECTS) $(LIB) $(JANSSON_LIBS) $(LDLIBS)

$(PAGES): $(MAN)/%: man/%.scd
	@mkdir -p $(MAN)
	$(SCDOC) <$< >$@.new
	@mv $@.new $@

# What goes where; install and uninstall go by the same lists.
DOCUMENTS := LICENSE docs/C-INTERFACE.md docs/DECISIONS.md $(wildcard CHANGELOG.md)
EXAMPLE_FILES := $(wildcard examples/*.c examples/*.h)
SAMPLES := $(wildcard samples/*)
COMPLETIONS := $(wildcard completions/*)

# $(call into,FOLDER,FILES): installs files as data into a folder, which is made; nothing where there are no files.
into = $(if $(strip $(2)),$(INSTALL) -d '$(DESTDIR)$(1)' && $(INSTALL_DATA) $(2) '$(DESTDIR)$(1)',:)

# $(call away,FOLDER,FILES): removes files of these names from a folder.
away = $(if $(strip $(2)),rm -f $(foreach file,$(notdir $(2)),'$(DESTDIR)$(1)/$(file)'),:)

# $(call pages,N): the manual pages of section N.
pages = $(filter %.$(1),$(PAGES))

# boardid.pc. It names the prefix by its way from the folder of boardid.pc, where that is below the prefix, so that all of it can be moved; and folders by
# their way from the prefix, where they are below it.
$(OUT)/boardid.pc: FORCE
	@mkdir -p $(OUT)
	@prefix='$(prefix)' pkgconfigdir='$(pkgconfigdir)'; \
	below() { case $$1 in "$$prefix"/*) echo "\$${prefix}$${1#"$$prefix"}" ;; *) echo "$$1" ;; esac; }; \
	case $$pkgconfigdir in \
	"$$prefix"/*) from="\$${pcfiledir}$$(echo "$${pkgconfigdir#"$$prefix"}" | sed 's|//*|/|g; s|/$$||; s|[^/][^/]*|..|g')" ;; \
	*) from=$$prefix ;; \
	esac; \
	{ \
	    echo "prefix=$$from"; \
	    echo "includedir=$$(below '$(includedir)')"; \
	    echo "libdir=$$(below '$(libdir)')"; \
	    for edition in $(EDITIONS); do \
	        echo "edition_$$edition=\$${includedir}/boardid/edition-$$edition"; \
	    done; \
	    echo; \
	    echo 'Name: boardid'; \
	    echo 'Description: Reads, writes and edits board-identity EEPROM images'; \
	    echo 'Version: $(VERSION)'; \
	    echo 'Cflags: -I$${includedir}'; \
	    echo 'Libs: -L$${libdir} -lboardid'; \
	} >$@

# Neither the kit nor a proof is needed here: the archive is taken as it is, and what is made from it is made where it is missing or older.
install:
	@[ -f '$(LIB)' ] || { echo 'make install: there is no archive $(LIB); run make first, or name one with LIB=FILE' >&2; exit 1; }
	@$(MAKE) --no-print-directory LIB='$(LIB)' install-files

install-files: shared $(COMMAND) $(PAGES) $(LEFT_OUT) $(OUT)/boardid.pc
	$(INSTALL) -d '$(DESTDIR)$(libdir)' '$(DESTDIR)$(includedir)'
	$(INSTALL_DATA) '$(LIB)' '$(DESTDIR)$(libdir)/libboardid.a'
	$(INSTALL_DATA) $(OUT)/$(SHARED) '$(DESTDIR)$(libdir)/$(SHARED)'
	ln -sf $(SHARED) '$(DESTDIR)$(libdir)/$(SONAME)'
	ln -sf $(SONAME) '$(DESTDIR)$(libdir)/libboardid.so'
	$(call into,$(pkgconfigdir),$(OUT)/boardid.pc)
	$(INSTALL_DATA) include/edition-$(NEWEST)/boardid.h '$(DESTDIR)$(includedir)/boardid.h'
	for edition in $(EDITIONS); do \
	    $(INSTALL) -d "$(DESTDIR)$(includedir)/boardid/edition-$$edition" && \
	    $(INSTALL_DATA) "include/edition-$$edition/boardid.h" \
	        "$(DESTDIR)$(includedir)/boardid/edition-$$edition/boardid.h" || exit 1; \
	done
	$(if $(COMMAND),$(INSTALL) -d '$(DESTDIR)$(bindir)' && $(INSTALL_PROGRAM) $(COMMAND) '$(DESTDIR)$(bindir)/boardid',:)
	$(if $(COMMAND),$(call into,$(bashcompletiondir),$(COMPLETIONS)),:)
	$(call into,$(mandir)/man1,$(if $(COMMAND),$(call pages,1)))
	$(call into,$(mandir)/man3,$(call pages,3))
	$(call into,$(docdir),$(DOCUMENTS))
	$(call into,$(docdir)/examples,$(EXAMPLE_FILES))
	$(call into,$(docdir)/samples,$(SAMPLES))

# Folders that are this package's alone go too, where nothing of another is in them.
uninstall:
	$(call away,$(libdir),libboardid.a $(SHARED) $(SONAME) libboardid.so)
	$(call away,$(pkgconfigdir),boardid.pc)
	$(call away,$(includedir),boardid.h)
	$(call away,$(bindir),boardid)
	$(call away,$(bashcompletiondir),$(COMPLETIONS))
	$(call away,$(mandir)/man1,$(patsubst man/%.scd,%,$(filter %.1.scd,$(PAGE_SOURCES))))
	$(call away,$(mandir)/man3,$(patsubst man/%.scd,%,$(filter %.3.scd,$(PAGE_SOURCES))))
	$(call away,$(docdir),$(DOCUMENTS))
	$(call away,$(docdir)/examples,$(EXAMPLE_FILES))
	$(call away,$(docdir)/samples,$(SAMPLES))
	for edition in $(EDITIONS); do rm -f "$(DESTDIR)$(includedir)/boardid/edition-$$edition/boardid.h"; done
	for folder in $(EDITIONS:%='$(DESTDIR)$(includedir)/boardid/edition-%') '$(DESTDIR)$(includedir)/boardid' \
	    '$(DESTDIR)$(docdir)/examples' '$(DESTDIR)$(docdir)/samples' '$(DESTDIR)$(docdir)'; do \
	    if [ -d "$$folder" ]; then rmdir --ignore-fail-on-non-empty "$$folder" || exit 1; fi; \
	done

# The headers are checked in; the gate sees that they are what this makes.
headers:
	include/make-headers

# The tests in C, of the command, and of the Python package.
check: all
	LIB='$(LIB)' LDLIBS='$(LDLIBS)' tests/c/run.sh
	@if [ -x tests/command/run.sh ]; then \
	    if [ -n '$(COMMAND)' ]; then tests/command/run.sh; else echo 'left out: the tests of the command, which is not built' >&2; fi; \
	fi
	@if [ -d python/tests ]; then \
	    PYTHONDONTWRITEBYTECODE=1 PYTHONPATH=python BOARDID_LIBRARY='$(CURDIR)/$(OUT)/$(SONAME)' $(PYTHON) -m pytest -q -p no:cacheprovider python/tests; \
	fi

clean:
	rm -rf $(OUT) $(MAN)

FORCE:

.PHONY: all shared no-command no-pages install install-files uninstall headers check clean FORCE
