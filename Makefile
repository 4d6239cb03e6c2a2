# make install PREFIX=FOLDER   the libraries for C: FOLDER/include/ringplan.h and ringlive.h, FOLDER/lib/libringplan.a and libringlive.a,
# and a file for pkg-config.
#
# A library is proved and built first where it is missing or older than its source. It is code for x86-64. What rt makes is in the crates'
# folders out/.
PREFIX ?= /usr/local
library := target/staticlib/libsupervisor.a
live := target/staticlib/libkept_live.a
version := $(shell sed -n 's/^.define RINGPLAN_VERSION_[A-Z]* //p' include/ringplan.h | paste -sd .)

all: $(library) $(live)

target/staticlib/lib%.a: crates.txt $(shell find crates -name out -prune -o -type f -print)
	cd crates/$* && rt lib
	install -D -m 644 crates/$*/out/lib$*.a $@

install: $(library) $(live)
	install -d '$(DESTDIR)$(PREFIX)/include' '$(DESTDIR)$(PREFIX)/lib/pkgconfig'
	install -m 644 include/ringplan.h include/ringlive.h '$(DESTDIR)$(PREFIX)/include'
	install -m 644 $(library) '$(DESTDIR)$(PREFIX)/lib/libringplan.a'
	install -m 644 $(live) '$(DESTDIR)$(PREFIX)/lib/libringlive.a'
	sed -e 's|@prefix@|$(PREFIX)|' -e 's|@version@|$(version)|' include/ringplan.pc.in >'$(DESTDIR)$(PREFIX)/lib/pkgconfig/ringplan.pc'

.PHONY: all install
