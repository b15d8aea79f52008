# make                   proves and builds the library for C and the command, target/yaffledesk
# make run [PLAN=file]   proves and builds the report program, and prints the report of a plan, examples/a.plan
#                        where none is named
# make test              the test command: proves every crate, tries the wrong versions, runs all tests
# make sanitize          tests the command once more, built under gcc's sanitizers of memory and undefined behaviour
# make check CRATE=plan  proves one crate and what it rests on; what has not changed since is not proved again
# make install           puts the command, its manual page, planfile (as yaffledesk-planfile), the library, the header
#                        and a file for pkg-config below PREFIX (/usr/local, if it is not given), or below it in DESTDIR
# make uninstall         removes what make install put there
# make help              prints this list
# CFLAGS, CPPFLAGS and LDFLAGS are taken as they are given, and so is HARDENING, which may be empty.
# What of Debian's is missing is installed first, where that may be (tests/tools).
PLAN ?= examples/a.plan
PREFIX ?= /usr/local
CC := gcc
CFLAGS ?= -O2
HARDENING ?= -fstack-protector-strong $(FORTIFY) -fPIE -pie -Wl,-z,relro,-z,now
# there is no such thing without optimisation, and whoever names it has chosen
FORTIFY = $(if $(CHOSEN),,$(if $(OPTIMISED),-U_FORTIFY_SOURCE -D_FORTIFY_SOURCE=2))
CHOSEN = $(findstring _FORTIFY_SOURCE,$(CPPFLAGS) $(CFLAGS))
OPTIMISED = $(filter-out -O0,$(lastword $(filter -O%,$(CFLAGS))))
# 1, and how many of the customers' change requests have landed
VERSION := 1.7

COMMAND := target/yaffledesk
LIBRARY := target/staticlib/libyaffledesk.a
# Recipes have these from the environment, so that every character in them is what it is. On make's command line $ is
# written $$; a newline cannot be had there, nor a blank at the beginning.
export PREFIX DESTDIR
# what the tests in other languages call
TESTING := git gcc g++ rustc flock unshare readelf rsvg-convert parallel pkg-config man
# so that the last line of `make test` is its count, from wherever it is called
MAKEFLAGS += --no-print-directory
.PHONY: all run test sanitize check install uninstall help

all: $(COMMAND)

$(LIBRARY): crates.txt $(shell find crates -name out -prune -o -type f -print)
	@tests/tools rt python3 flock
	@mkdir -p target
	@tests/library >target/library.log || { cat target/library.log; exit 1; }
	@touch $@

$(COMMAND): $(LIBRARY) $(wildcard command/*.c command/*.h) include/yaffledesk.h Makefile
	@tests/tools $(CC)
	@echo "building the command" >&2
	@$(CC) -std=c11 -D_GNU_SOURCE -DYAFFLEDESK_VERSION='"$(VERSION)"' -Wall -Wextra -pedantic $(HARDENING) \
	    $(CPPFLAGS) $(CFLAGS) $(LDFLAGS) -pthread -Iinclude $(wildcard command/*.c) $(LIBRARY) -o $@
	@echo "$@ is built; $@ --help says what it does" >&2

# In pkg-config's file a \ stands before what it would take for more than it is: blanks, quotes, \, #, and { after $.
install: $(COMMAND)
	@install -D -T -m 755 $(COMMAND) "$$DESTDIR$$PREFIX/bin/yaffledesk"
	@install -D -T -m 755 tools/planfile "$$DESTDIR$$PREFIX/bin/yaffledesk-planfile"
	@install -D -T -m 644 command/yaffledesk.1 "$$DESTDIR$$PREFIX/share/man/man1/yaffledesk.1"
	@install -D -T -m 644 $(LIBRARY) "$$DESTDIR$$PREFIX/lib/libyaffledesk.a"
	@install -D -T -m 644 include/yaffledesk.h "$$DESTDIR$$PREFIX/include/yaffledesk.h"
	@install -D -T -m 644 /dev/null "$$DESTDIR$$PREFIX/lib/pkgconfig/yaffledesk.pc"
	@prefix=$$(printf '%s\n' "$$PREFIX" | sed "s/[[:space:]\"'\`\\\\{#]/\\\\&/g") && { printf 'prefix=%s\n' "$$prefix" && \
	    sed 's/@VERSION@/$(VERSION)/' command/yaffledesk.pc.in; } >"$$DESTDIR$$PREFIX/lib/pkgconfig/yaffledesk.pc"
	@printf 'installed below %s\n' "$$DESTDIR$$PREFIX" >&2

uninstall:
	@rm -f "$$DESTDIR$$PREFIX/bin/yaffledesk" "$$DESTDIR$$PREFIX/bin/yaffledesk-planfile" \
	    "$$DESTDIR$$PREFIX/share/man/man1/yaffledesk.1" "$$DESTDIR$$PREFIX/lib/libyaffledesk.a" \
	    "$$DESTDIR$$PREFIX/include/yaffledesk.h" "$$DESTDIR$$PREFIX/lib/pkgconfig/yaffledesk.pc"

run:
	@test -r "$(PLAN)" || { echo "make run: cannot read the plan file $(PLAN)" >&2; exit 2; }
	@tests/tools rt python3
	@tools/prove report
	@crates/report/out/report <"$(PLAN)"

check:
	@test -n "$(CRATE)" || { echo "make check CRATE=plan: which crate? crates.txt lists them" >&2; exit 2; }
	@tests/tools rt python3
	@tools/prove $(CRATE)

test:
	@tests/tools rt python3 $(TESTING)
	@tests/run

# The command under gcc's sanitizers, and a program with faults that they are to report. Their libraries are linked into
# them: that halves what a start takes, and the tests start some thousand.
SANITIZERS := -O1 -g -fsanitize=address,undefined -fno-sanitize-recover=all -static-libasan -static-libubsan

target/yaffledesk.sanitized: $(LIBRARY) $(wildcard command/*.c command/*.h) include/yaffledesk.h Makefile
	@tests/tools $(CC)
	@$(CC) -std=c11 -D_GNU_SOURCE -DYAFFLEDESK_VERSION='"$(VERSION)"' $(SANITIZERS) \
	    -pthread -Iinclude $(wildcard command/*.c) $(LIBRARY) -o $@

target/faulty.sanitized: tests/sanitize/faulty.c Makefile
	@mkdir -p target
	@$(CC) -std=c11 $(SANITIZERS) $< -o $@

sanitize:
	@tests/tools rt python3 $(TESTING)
	@tests/sanitize/command

help:
	@sed -n 's/^# \(make\|  \)/\1/p' Makefile
