# make                        prove and build the library and `decay`: target/libelchepur.a and crates/decay/out/decay
# make install PREFIX=FOLDER  put them where other programs find them, with the headers; else in /usr/local
# make test                   every test
PREFIX ?= /usr/local

.PHONY: all install test
all:
	tools/archive target/libelchepur.a
	bash -eo pipefail -c '. tools/lib/kit.sh; proved decay'

install:
	tools/install "$(DESTDIR)$(PREFIX)"

test:
	bash tests/run
