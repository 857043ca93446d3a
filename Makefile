# make              proves and builds the programs (target/bin) and the library for C (target/staticlib)
# make install      copies them with the header, the pkg-config file and the man pages below PREFIX; DESTDIR goes before it
# make uninstall    removes what `make install` copied
# make check        the gate: .ci/run
# make clean        removes what was built, and what the checks kept
PREFIX ?= /usr/local
DESTDIR ?=

PROGRAMS = replay why bootnodes keccak256
VERSION = $(shell cat VERSION)
ROOT = $(DESTDIR)$(PREFIX)
LIBEXEC = $(ROOT)/libexec/coghammer
MAN = $(ROOT)/share/man

all:
	@tools/needs rt python3
	tools/build $(PROGRAMS) capi

install:
	@tools/needs $(PROGRAMS:%=target/bin/%)
	@test -f target/staticlib/libcapi.a || { echo "missing: target/staticlib/libcapi.a (run make)" >&2; exit 2; }
	install -d "$(ROOT)/bin" "$(LIBEXEC)" "$(ROOT)/include" "$(ROOT)/lib/pkgconfig" "$(MAN)/man1" "$(MAN)/man3"
	install -m 755 $(PROGRAMS:%=bin/%) "$(ROOT)/bin"
	install -m 755 $(PROGRAMS:%=target/bin/%) "$(LIBEXEC)"
	install -m 644 libexec/coghammer/run VERSION "$(LIBEXEC)"
	install -m 644 include/coghammer.h "$(ROOT)/include"
	install -m 644 target/staticlib/libcapi.a "$(ROOT)/lib/libcoghammer.a"
	sed -e 's|@PREFIX@|$(PREFIX)|' -e 's|@VERSION@|$(VERSION)|' host/c/coghammer.pc.in >"$(ROOT)/lib/pkgconfig/coghammer.pc"
	chmod 644 "$(ROOT)/lib/pkgconfig/coghammer.pc"
	install -m 644 $(PROGRAMS:%=docs/man/%.1) "$(MAN)/man1"
	install -m 644 docs/man/coghammer.3 "$(MAN)/man3"

uninstall:
	rm -f $(PROGRAMS:%="$(ROOT)/bin/%") $(PROGRAMS:%="$(LIBEXEC)/%") "$(LIBEXEC)/run" "$(LIBEXEC)/VERSION" "$(ROOT)/include/coghammer.h" \
	    "$(ROOT)/lib/libcoghammer.a" "$(ROOT)/lib/pkgconfig/coghammer.pc" $(PROGRAMS:%="$(MAN)/man1/%.1") "$(MAN)/man3/coghammer.3"
	-rmdir "$(LIBEXEC)"

check:
	.ci/run

clean:
	rm -rf target crates/*/out

.PHONY: all install uninstall check clean
