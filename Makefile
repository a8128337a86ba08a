# make             the C library, static and shared, simd.pc and seal, below target/
# make check       the gate: proves every crate, tries every wrong program, runs all tests (.ci/run)
# make install     puts them, simd.h and the man pages below DESTDIR and PREFIX; needs no kit once they are built
# make uninstall   takes away what install put there
# make clean       removes target/ and what rt keeps of its proofs, crates/*/out

PREFIX = /usr/local
BINDIR = $(PREFIX)/bin
LIBDIR = $(PREFIX)/lib
INCLUDEDIR = $(PREFIX)/include
MANDIR = $(PREFIX)/share/man
PKGCONFIGDIR = $(LIBDIR)/pkgconfig
# seal looks for its program there, from where it stands itself.
PROGRAMDIR = $(dir $(BINDIR))libexec/simd

CC = cc
AR = ar
CFLAGS = -O2
LDFLAGS =
INSTALL = install
INSTALL_PROGRAM = $(INSTALL) -m 755
INSTALL_DATA = $(INSTALL) -m 644

VERSION := $(shell sed -n 's/^\#define SIMD_VERSION "\(.*\)"/\1/p' include/simd.h)
SONAME := libsimd.so.$(firstword $(subst ., ,$(VERSION)))
OUT := target/lib
ARCHIVE := target/staticlib/libsimd_c.a
PRODUCTS := $(OUT)/libsimd.a $(OUT)/libsimd.so.$(VERSION)

.DELETE_ON_ERROR:
.PHONY: all check install uninstall clean FORCE

all: $(PRODUCTS) target/bin/seal

# tools/build leaves what is not older than its sources as it is, so nothing below is made again then.
target/bin/seal: FORCE
	@tools/build seal

$(ARCHIVE): FORCE
	@tools/build simd_c

$(OUT)/libsimd.a: $(ARCHIVE)
	@test -n "$(VERSION)" || { echo 'no SIMD_VERSION in include/simd.h' >&2; exit 1; }
	rm -rf $(OUT)/objects $@
	mkdir -p $(OUT)/objects
	cd $(OUT)/objects && $(AR) x ../../../$(ARCHIVE)
	$(AR) rcs $@ $(OUT)/objects/*.o

$(OUT)/libsimd.so.$(VERSION): $(OUT)/libsimd.a
	$(CC) $(CFLAGS) $(LDFLAGS) -shared -Wl,-soname,$(SONAME) -Wl,-z,noexecstack -Wl,-z,defs -o $@ -Wl,--whole-archive $(OUT)/libsimd.a -Wl,--no-whole-archive

check:
	.ci/run

install: all
	$(INSTALL) -d "$(DESTDIR)$(BINDIR)" "$(DESTDIR)$(PROGRAMDIR)" "$(DESTDIR)$(LIBDIR)" "$(DESTDIR)$(INCLUDEDIR)" "$(DESTDIR)$(PKGCONFIGDIR)" \
	    "$(DESTDIR)$(MANDIR)/man1" "$(DESTDIR)$(MANDIR)/man3"
	$(INSTALL_PROGRAM) seal "$(DESTDIR)$(BINDIR)/seal"
	$(INSTALL_PROGRAM) target/bin/seal "$(DESTDIR)$(PROGRAMDIR)/seal"
	$(INSTALL_DATA) $(OUT)/libsimd.a "$(DESTDIR)$(LIBDIR)/libsimd.a"
	$(INSTALL_PROGRAM) $(OUT)/libsimd.so.$(VERSION) "$(DESTDIR)$(LIBDIR)/libsimd.so.$(VERSION)"
	ln -sf libsimd.so.$(VERSION) "$(DESTDIR)$(LIBDIR)/$(SONAME)"
	ln -sf $(SONAME) "$(DESTDIR)$(LIBDIR)/libsimd.so"
	$(INSTALL_DATA) include/simd.h "$(DESTDIR)$(INCLUDEDIR)/simd.h"
	sed -e 's|@PREFIX@|$(PREFIX)|' -e 's|@LIBDIR@|$(LIBDIR)|' -e 's|@INCLUDEDIR@|$(INCLUDEDIR)|' -e 's|@VERSION@|$(VERSION)|' simd.pc.in \
	    >"$(DESTDIR)$(PKGCONFIGDIR)/simd.pc"
	chmod 644 "$(DESTDIR)$(PKGCONFIGDIR)/simd.pc"
	$(INSTALL_DATA) man/seal.1 "$(DESTDIR)$(MANDIR)/man1/seal.1"
	$(INSTALL_DATA) man/simd.3 "$(DESTDIR)$(MANDIR)/man3/simd.3"

uninstall:
	rm -f "$(DESTDIR)$(PROGRAMDIR)/seal" "$(DESTDIR)$(BINDIR)/seal" "$(DESTDIR)$(LIBDIR)/libsimd.a" "$(DESTDIR)$(LIBDIR)/libsimd.so" \
	    "$(DESTDIR)$(LIBDIR)/$(SONAME)" "$(DESTDIR)$(LIBDIR)/libsimd.so.$(VERSION)" "$(DESTDIR)$(INCLUDEDIR)/simd.h" \
	    "$(DESTDIR)$(PKGCONFIGDIR)/simd.pc" "$(DESTDIR)$(MANDIR)/man1/seal.1" "$(DESTDIR)$(MANDIR)/man3/simd.3"
	-rmdir "$(DESTDIR)$(PROGRAMDIR)"

clean:
	rm -rf target crates/*/out
