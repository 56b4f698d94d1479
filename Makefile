# The C library: `make library` proves and builds it, `make test` tries it, `make install PREFIX=..` puts it in place.
# `make command` builds the command over it, which is installed along with it.
PREFIX = /usr/local
VERSION = 0.2.0
LIBRARY = crates/exports/out/libexports.a
COMMAND = rust/target/release/notepage
to = $(DESTDIR)$(PREFIX)

.PHONY: library command test install

library:
	cd crates/exports && rt lib

command:
	cd rust && cargo build --offline --release --bin notepage

test:
	tools/c_test

install:
	@test -f $(LIBRARY) || { echo 'there is no library yet: make library'; exit 1; }
	install -d $(to)/lib/pkgconfig $(to)/include $(to)/share/licenses/notepage
	install -m 644 $(LIBRARY) $(to)/lib/libnotepage.a
	install -m 644 include/notepage.h $(to)/include/notepage.h
	install -m 644 LICENSE NOTICE $(to)/share/licenses/notepage
	sed -e 's|@PREFIX@|$(PREFIX)|' -e 's|@VERSION@|$(VERSION)|' include/notepage.pc.in >$(to)/lib/pkgconfig/notepage.pc
	@if test -x $(COMMAND); then install -d $(to)/bin && install -m 755 $(COMMAND) $(to)/bin/notepage; \
	else echo 'the command was not built, so the library is installed without it'; fi
