# Installs the library, its header, the program plans and their manuals:
#
#     make install PREFIX=/usr/local
#
# DESTDIR is put before PREFIX, for packages. The library and the program are proved and built first, by rt, where they are not there yet
# or a source is newer.

PREFIX ?= /usr/local
DESTDIR ?=
INSTALL ?= install

version := $(shell sed -n 's/^\#define PLANNER_VERSION "\(.*\)"$$/\1/p' include/planner.h)
sources := crates.txt $(shell find crates -type f -not -path '*/out/*')
library := crates/planner/out/libplanner.a
program := crates/plans/out/plans
installed := $(DESTDIR)$(PREFIX)

.PHONY: all library install uninstall

all: $(library) $(program)

library: $(library)

$(library): $(sources)
	cd crates/planner && rt lib
	touch $@

$(program): $(sources)
	cd crates/plans && rt run < /dev/null > /dev/null
	touch $@

install: all
	$(INSTALL) -d $(installed)/bin $(installed)/include $(installed)/lib/pkgconfig $(installed)/share/man/man1
	$(INSTALL) -m 644 include/planner.h $(installed)/include/planner.h
	$(INSTALL) -m 644 $(library) $(installed)/lib/libplanner.a
	$(INSTALL) -m 755 $(program) $(installed)/bin/plans
	$(INSTALL) -m 644 man/plans.1 $(installed)/share/man/man1/plans.1
	sed -e 's|@PREFIX@|$(PREFIX)|' -e 's|@VERSION@|$(version)|' planner.pc.in > $(installed)/lib/pkgconfig/planner.pc
	chmod 644 $(installed)/lib/pkgconfig/planner.pc

uninstall:
	rm -f $(installed)/include/planner.h $(installed)/lib/libplanner.a $(installed)/bin/plans
	rm -f $(installed)/share/man/man1/plans.1 $(installed)/lib/pkgconfig/planner.pc
