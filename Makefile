# make            builds the library (x86-64, proved) and the program
# make install    headers, archive, pkg-config file, program and its page under PREFIX; DESTDIR before it, for packagers
# make release    tools/release;  make test    the gate
PREFIX ?= /usr/local
TO = $(DESTDIR)$(PREFIX)
VERSION = $(shell sed -n 's/^\#define LARSAVIM_VERSION "\(.*\)"$$/\1/p' host/larsavim.h)

all:
	./larsavim version

install: all
	install -d $(TO)/include $(TO)/lib/pkgconfig $(TO)/bin $(TO)/share/man/man1
	install -m 644 host/larsavim.h host/larsavim_model.h $(TO)/include
	install -m 644 target/staticlib/liblarsavim.a $(TO)/lib
	sed -e 's|@VERSION@|$(VERSION)|' -e 's|@LIBDIR@|lib|' host/larsavim.pc.in >$(TO)/lib/pkgconfig/larsavim.pc
	install -m 755 target/host/larsavim $(TO)/bin
	./larsavim help | host/manpage $(VERSION) >$(TO)/share/man/man1/larsavim.1

release:
	tools/release

test:
	./test

.PHONY: all install release test
