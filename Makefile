# make: proves and builds the programs and the C library. make test: the tests beside the proofs.
# make install PREFIX=.. DESTDIR=..: commands, library, header, manuals; make uninstall undoes it.
PREFIX = /usr/local
DESTDIR =
goal = "$(DESTDIR)$(PREFIX)"
commands = replay apply wait longer desk bodies publish unpublish salvage

all: programs lib

programs:
	lib/programs

lib:
	lib/build

test: programs
	tests/run

install: all
	lib/install $(goal)

uninstall:
	cd $(goal) && rm -rf lib/szomrelik lib/libjournal.a include/journal.h && for name in $(commands); do \
		rm -f bin/$$name share/man/man1/$$name.1; done

.PHONY: all programs lib test install uninstall
