# The command plq and the library for C: build, install, remove. GNU make.
#
#   make              target/command/plq; where the archive is absent, or older than a source, it is proved and built first, which takes minutes
#   make library      the archive alone, target/staticlib/libplq.a
#   make shared       target/command/libplq.so.1, the same library for linking at run time
#   make programs     target/bin/report and target/bin/ask, the programs in Rattle, proved and built
#   make benchmark    target/staticlib/libbench_calls.a and libbench_stored.a, which bench/ times, proved and built
#   make install      command, manual, header, both libraries and the pkg-config file, below PREFIX, in DESTDIR where that is set; programs that
#                     link libplq.so.1 then find it where the loader looks, after `ldconfig` or by LD_LIBRARY_PATH
#   make uninstall    removes these
#   make clean        removes target/command; the archive and the proofs stay
#
# Other variables: CC, CPPFLAGS, CFLAGS, LDFLAGS, STATIC, and LIBRARY for an archive that lies elsewhere.

PREFIX ?= /usr/local
BINDIR ?= $(PREFIX)/bin
LIBDIR ?= $(PREFIX)/lib
INCLUDEDIR ?= $(PREFIX)/include
MANDIR ?= $(PREFIX)/share/man
CFLAGS ?= -O2
archive := target/staticlib/libplq.a
LIBRARY ?= $(archive)
# The command is linked with the C library in it where the compiler can, so that nothing is loaded when it starts; STATIC= leaves it out.
STATIC ?= $(shell echo 'int main(void) { return 0; }' | $(CC) -static -x c - -o /dev/null 2>/dev/null && echo -static)

built := target/command
soname := libplq.so.1
version := $(shell sed -n 's/^.define PLQ_VERSION "\(.*\)"$$/\1/p' command/plq.c)

sources := crates.txt $(shell find crates -name out -prune -o -path '*/src/*.rt' -print)

.PHONY: plq library shared programs benchmark install uninstall clean
.DELETE_ON_ERROR:

plq: $(built)/plq

library: $(archive)

programs: target/bin/report target/bin/ask

benchmark: target/staticlib/libbench_calls.a target/staticlib/libbench_stored.a

shared: $(built)/$(soname)

# What rt builds lies in the crate's out/. A program it builds by running it, here without input.
define proved
	@command -v rt >/dev/null || { echo "rt, the Rattle toolchain, is not installed: $@ cannot be made" >&2; exit 1; }
	@echo "proving and building $@, which takes some minutes" >&2
	@mkdir -p $(@D)
endef

$(archive): $(sources)
	$(proved)
	cd crates/plq_c && rt lib
	cp crates/plq_c/out/libplq_c.a $@

target/staticlib/lib%.a: $(sources)
	$(proved)
	cd crates/$* && rt lib
	cp crates/$*/out/lib$*.a $@

target/bin/%: $(sources)
	$(proved)
	cd crates/$* && rt run </dev/null >/dev/null
	cp crates/$*/out/$* $@

$(built)/plq: command/plq.c include/plq.h $(LIBRARY)
	@mkdir -p $(built)
	$(CC) -std=c99 $(CPPFLAGS) $(CFLAGS) -Iinclude command/plq.c $(LIBRARY) $(STATIC) $(LDFLAGS) -o $@

# The archive's code does not depend on where it lies, so that it serves for both.
$(built)/$(soname): $(LIBRARY)
	@mkdir -p $(built)
	$(CC) -shared -Wl,--whole-archive $(LIBRARY) -Wl,--no-whole-archive -Wl,-soname,$(soname) -Wl,-z,defs $(LDFLAGS) -o $@

$(built)/plq.pc: command/plq.pc.in command/plq.c Makefile
	@mkdir -p $(built)
	sed -e 's|@PREFIX@|$(PREFIX)|' -e 's|@LIBDIR@|$(LIBDIR)|' -e 's|@INCLUDEDIR@|$(INCLUDEDIR)|' -e 's|@VERSION@|$(version)|' $< >$@

# The prefix may be another one than last time.
.PHONY: $(built)/plq.pc

install: plq shared $(built)/plq.pc
	install -d "$(DESTDIR)$(BINDIR)" "$(DESTDIR)$(LIBDIR)/pkgconfig" "$(DESTDIR)$(INCLUDEDIR)" "$(DESTDIR)$(MANDIR)/man1"
	install -m 755 $(built)/plq "$(DESTDIR)$(BINDIR)/plq"
	install -m 644 $(LIBRARY) "$(DESTDIR)$(LIBDIR)/libplq.a"
	install -m 755 $(built)/$(soname) "$(DESTDIR)$(LIBDIR)/$(soname)"
	ln -sf $(soname) "$(DESTDIR)$(LIBDIR)/libplq.so"
	install -m 644 include/plq.h "$(DESTDIR)$(INCLUDEDIR)/plq.h"
	install -m 644 $(built)/plq.pc "$(DESTDIR)$(LIBDIR)/pkgconfig/plq.pc"
	install -m 644 command/plq.1 "$(DESTDIR)$(MANDIR)/man1/plq.1"

uninstall:
	rm -f "$(DESTDIR)$(BINDIR)/plq" "$(DESTDIR)$(LIBDIR)/libplq.a" "$(DESTDIR)$(LIBDIR)/$(soname)" "$(DESTDIR)$(LIBDIR)/libplq.so"
	rm -f "$(DESTDIR)$(INCLUDEDIR)/plq.h" "$(DESTDIR)$(LIBDIR)/pkgconfig/plq.pc" "$(DESTDIR)$(MANDIR)/man1/plq.1"

clean:
	rm -rf $(built)
