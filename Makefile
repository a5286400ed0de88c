# The library for C, built and installed.
#
#   make                        the archive, the shared library and the listing program; what is not proved yet is proved, which takes some minutes
#   make install PREFIX=..      puts them, the header and ruphenqo.pc below PREFIX (/usr/local); DESTDIR stands in front of every path
#   make uninstall PREFIX=..    takes away what install put there
PREFIX = /usr/local
CC = cc
INSTALL = install

# 10000 is 1.0.0, and its shared library libruphenqo.so.1
VERSION := $(shell awk '$$2 == "RUPHENQO_VERSION" { printf "%d.%d.%d", $$3 / 10000, $$3 / 100 % 100, $$3 % 100 }' include/ruphenqo.h)
SONAME := libruphenqo.so.$(firstword $(subst ., ,$(VERSION)))

ARCHIVE := target/staticlib/libruphenqo.a
SHARED := target/shared/libruphenqo.so.$(VERSION)
LIST := target/bin/list
SOURCES := crates.txt $(shell find crates -path '*/out' -prune -o \( -name '*.rt' -o -name '*.antt' \) -print)

prefix := $(abspath $(PREFIX))
bin := $(DESTDIR)$(prefix)/bin
lib := $(DESTDIR)$(prefix)/lib
include := $(DESTDIR)$(prefix)/include

all: $(ARCHIVE) $(SHARED) $(LIST)

$(ARCHIVE): $(SOURCES)
	@. scripts/functions.sh && need rt setsid && make_archive
	@touch $@

$(LIST): $(SOURCES)
	@. scripts/functions.sh && need rt setsid && make_list
	@touch $@

# The linker refuses what is not position independent (text) or not found (defs).
$(SHARED): $(ARCHIVE) include/ruphenqo.h
	@mkdir -p $(@D)
	@echo '{ global: ruphenqo_*; local: *; };' >$(@D)/exports
	$(CC) -shared -o $@ -Wl,--whole-archive $(ARCHIVE) -Wl,--no-whole-archive -Wl,-soname,$(SONAME) -Wl,--version-script,$(@D)/exports \
	    -Wl,-z,text,-z,defs,-z,relro,-z,now,-z,noexecstack

install: all
	$(INSTALL) -d $(bin) $(lib)/pkgconfig $(include)
	$(INSTALL) -m 755 $(LIST) $(bin)/ruphenqo-list
	$(INSTALL) -m 644 $(ARCHIVE) $(SHARED) $(lib)
	ln -sf $(notdir $(SHARED)) $(lib)/$(SONAME)
	ln -sf $(SONAME) $(lib)/libruphenqo.so
	$(INSTALL) -m 644 include/ruphenqo.h $(include)
	printf '%s\n' 'prefix=$(prefix)' 'libdir=$${prefix}/lib' 'includedir=$${prefix}/include' '' 'Name: ruphenqo' \
	    'Description: integer fleet tasks, restricted tasks, and the plans between them' 'Version: $(VERSION)' \
	    'Libs: -L$${libdir} -lruphenqo' 'Cflags: -I$${includedir}' >$(lib)/pkgconfig/ruphenqo.pc

uninstall:
	rm -f $(bin)/ruphenqo-list $(lib)/libruphenqo.a $(lib)/$(notdir $(SHARED)) $(lib)/$(SONAME) $(lib)/libruphenqo.so \
	    $(include)/ruphenqo.h $(lib)/pkgconfig/ruphenqo.pc

.PHONY: all install uninstall
.NOTPARALLEL:
