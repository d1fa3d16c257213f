# make: the library, and the command on it. make install PREFIX=..: both in place, with the header, rtcm2.pc and the manual pages;
# DESTDIR is put before every place, for packages.
PREFIX ?= /usr/local
DESTDIR ?=
CARGO ?= cargo

LIBRARY = target/staticlib/librtcm2.a
COMMAND = target/rust/release/rtcm2
MANUAL = target/man
VERSION := $(shell sed -n 's/^\#define RTCM2_VERSION "\(.*\)"$$/\1/p' include/rtcm2.h)
TO = $(DESTDIR)$(PREFIX)

.PHONY: all command install uninstall python

all: command

# The library is proved before it is built; what is proved already is not proved again.
$(LIBRARY): crates.txt $(shell find crates -name out -prune -o '(' -name '*.rt' -o -name '*.antt' ')' -print)
	.ci/staticlib

command: $(LIBRARY)
	cd rust && $(CARGO) build --offline --release --bin rtcm2

install: command
	mkdir -p "$(TO)/bin" "$(TO)/lib/pkgconfig" "$(TO)/include" "$(TO)/share/man/man1" $(MANUAL)
	$(COMMAND) manual $(MANUAL)
	install -m 755 $(COMMAND) "$(TO)/bin/"
	install -m 644 $(LIBRARY) "$(TO)/lib/"
	install -m 644 include/rtcm2.h "$(TO)/include/"
	sed -e 's|@PREFIX@|$(PREFIX)|' -e 's|@VERSION@|$(VERSION)|' include/rtcm2.pc.in >"$(TO)/lib/pkgconfig/rtcm2.pc"
	install -m 644 $(MANUAL)/*.1 "$(TO)/share/man/man1/"

uninstall:
	rm -f "$(TO)/bin/rtcm2" "$(TO)/lib/librtcm2.a" "$(TO)/include/rtcm2.h" "$(TO)/lib/pkgconfig/rtcm2.pc"
	rm -f "$(TO)"/share/man/man1/rtcm2.1 "$(TO)"/share/man/man1/rtcm2-*.1

python: $(LIBRARY)
	python/shared
