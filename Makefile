# Installs the proved engine for hosts in C: card.h, libcard.a and a file for pkg-config. `make help` says how.
PREFIX ?= /usr/local
place = $(DESTDIR)$(PREFIX)
archive = $(or $(CARD_ARCHIVE_DIR),target/staticlib)/libcard.a
version = $(shell sed -n 's/^.define CARD_VERSION_$(1) //p' include/card.h)

all: archive
	@echo "$(archive) is there; 'tools/archive' makes it anew"

# The archive is made when it is not there, and never where CARD_ARCHIVE_DIR says that it is.
archive:
	@if [ -f "$(archive)" ]; then exit 0; fi; \
	if [ -n "$(CARD_ARCHIVE_DIR)" ]; then \
	    echo "$(archive) is not there: CARD_ARCHIVE_DIR names the directory that has it" >&2; exit 1; \
	elif ! command -v rt >/dev/null; then \
	    echo "$(archive) is not there, and no rt on the PATH to make it: 'tools/archive' writes it with the" \
	        "toolchain that toolchain.txt names; or name in CARD_ARCHIVE_DIR the directory that has one" >&2; exit 1; \
	fi; \
	tools/archive

# The file for pkg-config says where things are from its own place, so that the installed folder may be moved.
install: archive
	install -d "$(place)/include" "$(place)/lib/pkgconfig"
	install -m 644 include/card.h "$(place)/include/card.h"
	install -m 644 "$(archive)" "$(place)/lib/libcard.a"
	printf '%s\n' 'prefix=$${pcfiledir}/../..' 'Name: card' \
	    "Description: The member card's contract policy engine, proved" \
	    'Version: $(call version,MAJOR).$(call version,MINOR)' \
	    'Cflags: -I$${prefix}/include' 'Libs: -L$${prefix}/lib -lcard' >"$(place)/lib/pkgconfig/card.pc"
	chmod 644 "$(place)/lib/pkgconfig/card.pc"

uninstall:
	rm -f "$(place)/include/card.h" "$(place)/lib/libcard.a" "$(place)/lib/pkgconfig/card.pc"

help:
	@echo "make            makes $(archive) if it is not there"
	@echo "make install    installs include/card.h, lib/libcard.a and lib/pkgconfig/card.pc in $(place)"
	@echo "make uninstall  takes these three files away again"
	@echo "PREFIX=/some/where and DESTDIR=/some/root say where; CARD_ARCHIVE_DIR=/some/folder, which libcard.a to take"

.PHONY: all archive install uninstall help
