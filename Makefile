# make                     the archive, target/staticlib/libroundcabinet.a: proved, then compiled
# make install PREFIX=DIR  header, archive, pkg-config file and licences under DIR (default /usr/local); DESTDIR is put before it
# make uninstall PREFIX=DIR
# make shared              target/libroundcabinet.so, or where SHARED says, for a host that wants one
# make test                the hosts' tests
PREFIX ?= /usr/local
DESTDIR ?=
ROUNDCABINET_LIB ?= target/staticlib
ARCHIVE := $(ROUNDCABINET_LIB)/libroundcabinet.a
HEADER := include/roundcabinet.h
SHARED ?= target/libroundcabinet.so
INSTALL ?= install
CC ?= cc

# RC_VERSION has 65536 for each major, 256 for each minor and 1 for each patch number.
NUMBER := $(shell sed -n 's/^\#define RC_VERSION \([0-9]*\)u$$/\1/p' $(HEADER))
VERSION := $(shell echo $$(($(NUMBER) / 65536)).$$(($(NUMBER) / 256 % 256)).$$(($(NUMBER) % 256)))
TO := $(DESTDIR)$(PREFIX)

all: $(ARCHIVE)

$(ARCHIVE):
	scripts/archive

install: $(ARCHIVE)
	$(INSTALL) -d $(TO)/include $(TO)/lib/pkgconfig $(TO)/share/doc/roundcabinet
	$(INSTALL) -m 644 $(HEADER) $(TO)/include/roundcabinet.h
	$(INSTALL) -m 644 $(ARCHIVE) $(TO)/lib/libroundcabinet.a
	sed -e 's|@PREFIX@|$(PREFIX)|' -e 's|@VERSION@|$(VERSION)|' roundcabinet.pc.in >$(TO)/lib/pkgconfig/roundcabinet.pc
	$(INSTALL) -m 644 LICENSE NOTICE docs/HOSTS.md docs/TRUST.md $(TO)/share/doc/roundcabinet

uninstall:
	rm -f $(TO)/include/roundcabinet.h $(TO)/lib/libroundcabinet.a $(TO)/lib/pkgconfig/roundcabinet.pc
	rm -rf $(TO)/share/doc/roundcabinet

shared: $(ARCHIVE)
	$(CC) -shared -Wl,-soname,libroundcabinet.so.0 -Wl,--whole-archive $(ARCHIVE) -Wl,--no-whole-archive -o $(SHARED)

test:
	hosts/test

.PHONY: all install uninstall shared test
