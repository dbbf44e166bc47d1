# Builds the library for C as a static and as a shared library, and installs both; and proves the program:
#
#   make prove                          proves and builds the program, crates/jsonb_cat/out/jsonb_cat
#   make                                builds build/libvizhoniku.a and build/libvizhoniku.so.0
#   make install [PREFIX=/usr/local] [DESTDIR=]
#   make uninstall [PREFIX=/usr/local] [DESTDIR=]
#
# Needs the Rattle kit, cc, ld and objcopy. What is built is proved first, which takes a quarter of an hour and more. With
# PROVED=FILE no kit is needed: the file is the build/proved.o of a folder where the library was proved.
PREFIX ?= /usr/local
INCLUDEDIR ?= $(PREFIX)/include
LIBDIR ?= $(PREFIX)/lib
INSTALL ?= install
OBJCOPY ?= objcopy
CFLAGS ?= -O2

# The soname changes where a program that was linked before would go wrong.
SONAME = libvizhoniku.so.0
VERSION = $(shell sed -n 's/^\#define VIZHONIKU_VERSION_STRING "\(.*\)"/\1/p' include/vizhoniku.h)

# The functions that take bytes: packaging/empty.c stands before the proved ones.
WITH_BYTES = $(shell sed -n 's/^[a-z0-9_]* vizhoniku_\([a-z_]*\).*/\1/p' packaging/empty.c)

# What is proved, as one object.
PROVED ?= build/proved.o

# Of the kit's archives only that of malloc, realloc and free is called.
KIT = $(shell dirname "$$(rt doc)")
CRATES = $(shell packaging/crates jsonb_c)
SOURCES := crates.txt $(shell find $(CRATES:%=crates/%) -name out -prune -o \( -name '*.rt' -o -name '*.antt' \) -print)
BUILT = crates/jsonb_c/out/libjsonb_c.a

all: build/libvizhoniku.a build/$(SONAME)

# What rt prints is kept, and shown where it fails.
$(BUILT): $(SOURCES)
	@command -v rt > /dev/null || { echo "the library has to be proved, and the command rt of the Rattle kit is" \
	    "missing. With PROVED=FILE it is built from the build/proved.o of a folder where it was proved" >&2; exit 1; }
	@mkdir -p build
	@echo "proving and building the library, which takes minutes the first time. To follow it: tail -f $(CURDIR)/build/log"
	@touch build/start
	@packaging/follow library build/log packaging/prove jsonb_c || { cat build/log >&2; exit 1; }
	@touch -r build/start $@

build/proved.o: $(BUILT) Makefile
	@mkdir -p build
	$(LD) -r -o $@ --whole-archive $(BUILT) $(KIT)/c/liblibc_c.a
	$(OBJCOPY) $(foreach name,$(WITH_BYTES),--redefine-sym vizhoniku_$(name)=proved_$(name)) $@

build/empty.o: packaging/empty.c include/vizhoniku.h Makefile
	@mkdir -p build
	$(CC) $(CPPFLAGS) $(CFLAGS) -std=c99 -Wall -Wextra -Werror -pedantic -fPIC -fno-lto -Iinclude -c -o $@ $<

# One object, whose only global names are those of the header.
build/vizhoniku.o: $(PROVED) build/empty.o
	$(LD) -r -o $@ $^
	$(OBJCOPY) --wildcard --keep-global-symbol='vizhoniku_*' $@

build/libvizhoniku.a: build/vizhoniku.o
	rm -f $@
	$(AR) rcs $@ $<

build/$(SONAME): build/vizhoniku.o packaging/exports
	$(CC) -shared -o $@ -Wl,-soname,$(SONAME) -Wl,--version-script=packaging/exports -Wl,-z,defs $(LDFLAGS) $<

# The files for pkg-config and for CMake name these folders. So they are whole paths, which may have spaces, but no
# character that means something else there. A DESTDIR may have any character.
HASH := \#
REFUSED_CHARACTERS := " ' \ $$ ` $(HASH) ; & |
ifneq ($(filter install uninstall,$(MAKECMDGOALS)),)
$(foreach folder,PREFIX INCLUDEDIR LIBDIR,$(foreach character,$(REFUSED_CHARACTERS),\
    $(if $(findstring $(character),$($(folder))),$(error $(folder) is $($(folder)), and may have no $(character)))))
$(foreach folder,PREFIX INCLUDEDIR LIBDIR,\
    $(if $(filter /%,$(firstword $($(folder))/)),,$(error $(folder) is $($(folder)), and must begin with /)))
endif

# A word of the shell.
quoted = '$(subst ','\'',$(1))'
HEADER_TO = $(call quoted,$(DESTDIR)$(INCLUDEDIR))
LIBRARY_TO = $(call quoted,$(DESTDIR)$(LIBDIR))
NAMED = sed -e $(call quoted,s|@PREFIX@|$(PREFIX)|) -e $(call quoted,s|@INCLUDEDIR@|$(INCLUDEDIR)|) \
    -e $(call quoted,s|@LIBDIR@|$(LIBDIR)|) -e $(call quoted,s|@VERSION@|$(VERSION)|)

install: all
	$(INSTALL) -d $(HEADER_TO) $(LIBRARY_TO)/pkgconfig $(LIBRARY_TO)/cmake/vizhoniku
	$(INSTALL) -m 644 include/vizhoniku.h include/vizhoniku.hpp $(HEADER_TO)
	$(INSTALL) -m 644 build/libvizhoniku.a $(LIBRARY_TO)
	$(INSTALL) -m 755 build/$(SONAME) $(LIBRARY_TO)
	ln -sf $(SONAME) $(LIBRARY_TO)/libvizhoniku.so
	$(NAMED) packaging/vizhoniku.pc.in > $(LIBRARY_TO)/pkgconfig/vizhoniku.pc
	chmod 644 $(LIBRARY_TO)/pkgconfig/vizhoniku.pc
	for name in vizhoniku-config vizhoniku-config-version; do \
	    $(NAMED) packaging/$$name.cmake.in > $(LIBRARY_TO)/cmake/vizhoniku/$$name.cmake && \
	    chmod 644 $(LIBRARY_TO)/cmake/vizhoniku/$$name.cmake || exit 1; \
	done

uninstall:
	rm -f $(HEADER_TO)/vizhoniku.h $(HEADER_TO)/vizhoniku.hpp $(LIBRARY_TO)/libvizhoniku.a $(LIBRARY_TO)/$(SONAME) \
	    $(LIBRARY_TO)/libvizhoniku.so $(LIBRARY_TO)/pkgconfig/vizhoniku.pc
	rm -rf $(LIBRARY_TO)/cmake/vizhoniku

clean:
	rm -rf build

# The script looks itself whether anything has changed.
prove:
	@packaging/program

.PHONY: all prove install uninstall clean
.DELETE_ON_ERROR:
