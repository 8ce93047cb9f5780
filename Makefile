# make run: proves and builds the reader and the command, and lists an image. `IMAGE` is any image, `PLACE` its table place, or auto.
# make test: the gate. Its last line is 'N passed, 0 failed'. `SEED` and `IMAGES` are those of the generated images.
# make program: the program of document 01, target/bin/pdi, with an exit status.
# make bench: what reading costs. make cli: the command alone. make install PREFIX=..: command, header, archive, pkg-config file, man page.
IMAGE = examples/bench.pdi
PLACE = auto
SEED = 20240229
IMAGES = 200000
PREFIX = /usr/local
DESTDIR =
CC = gcc
RUSTC = rustc

# A name may hold anything: spaces, quotation marks, `$`. Neither make nor a recipe's shell may read such marks as its own, so these are
# taken as they were given, unexpanded, and reach recipes through the environment alone, as "$$NAME". Only spaces in front get lost.
override export IMAGE := $(value IMAGE)
override export PLACE := $(value PLACE)
override export SEED := $(value SEED)
override export IMAGES := $(value IMAGES)
override export PREFIX := $(value PREFIX)
override export DESTDIR := $(value DESTDIR)

ARCHIVE = target/staticlib/libpdi_host.a
PROGRAM = target/bin/pdi
PROVED := $(shell find crates -name out -prune -o \( -name '*.rt' -o -name '*.antt' \) -print)
CLI_VERSION := $(shell cat cli/VERSION)
CLI_SOURCES := $(wildcard cli/*.c)
CLI_INPUTS := $(CLI_SOURCES) $(wildcard cli/*.h) include/pdi.h cli/VERSION $(ARCHIVE)
CLI_FLAGS = -std=c11 -D_XOPEN_SOURCE=700 -D_FILE_OFFSET_BITS=64 -DFOLIOBRIAR_VERSION='"$(CLI_VERSION)"' -Iinclude \
	-Wall -Wextra -Werror -pedantic -Wconversion -Wshadow
OUTSIDE_FLAGS = --edition 2021 -C opt-level=3 -D warnings -L target/staticlib -l static=pdi_host

.PHONY: run test program bench cli cli-checked outside install uninstall
run: target/cli/foliobriar
	@target/cli/foliobriar list --place="$$PLACE" -- "$$IMAGE"

test:
	@scripts/test

bench: target/cli/foliobriar target/bench/bench target/bench/stack
	@bench/run

program: $(PROGRAM)
cli: target/cli/foliobriar
cli-checked: target/cli-checked/foliobriar
outside: target/outside/outside

# The static library pdi_host_c has the calls of pdi_host, under their names; who links the archive knows it by that crate's name.
$(ARCHIVE): crates.txt $(PROVED)
	cd crates/pdi_host_c && rt lib >&2
	@mkdir -p $(@D)
	install -m 644 crates/pdi_host_c/out/libpdi_host_c.a $@

# `rt run` builds the program and then runs it, here on no input. `rt ci` leaves it there as well, proved and built.
crates/pdi/out/pdi: crates.txt $(PROVED)
	cd crates/pdi && rt run </dev/null >/dev/null
	@touch $@

$(PROGRAM): crates/pdi/out/pdi
	@mkdir -p $(@D)
	install -m 755 crates/pdi/out/pdi $@

target/cli/foliobriar: $(CLI_INPUTS)
	@mkdir -p $(@D)
	$(CC) $(CLI_FLAGS) -O2 $(CFLAGS) $(CLI_SOURCES) $(ARCHIVE) $(LDFLAGS) -o $@

target/cli-checked/foliobriar: $(CLI_INPUTS)
	@mkdir -p $(@D)
	$(CC) $(CLI_FLAGS) -O1 -g -fsanitize=address,undefined -fno-sanitize-recover=all $(CLI_SOURCES) $(ARCHIVE) -o $@

target/outside/outside: $(wildcard tests/outside/*.rs) include/pdi.h $(ARCHIVE)
	@mkdir -p $(@D)
	$(RUSTC) $(OUTSIDE_FLAGS) -o $@ tests/outside/main.rs

target/bench/bench: $(wildcard bench/*.rs tests/outside/*.rs) include/pdi.h $(ARCHIVE)
	@mkdir -p $(@D)
	$(RUSTC) $(OUTSIDE_FLAGS) -o $@ bench/bench.rs

target/bench/stack: bench/stack.c include/pdi.h $(ARCHIVE)
	@mkdir -p $(@D)
	$(CC) -std=c11 -D_DEFAULT_SOURCE -Iinclude -Wall -Wextra -Werror -pedantic -O2 bench/stack.c $(ARCHIVE) -o $@

install: target/cli/foliobriar
	install -d -- "$$DESTDIR$$PREFIX/bin" "$$DESTDIR$$PREFIX/include" "$$DESTDIR$$PREFIX/lib/pkgconfig" \
		"$$DESTDIR$$PREFIX/share/man/man1"
	install -m 755 -- target/cli/foliobriar "$$DESTDIR$$PREFIX/bin/foliobriar"
	install -m 644 -- include/pdi.h "$$DESTDIR$$PREFIX/include/pdi.h"
	install -m 644 -- $(ARCHIVE) "$$DESTDIR$$PREFIX/lib/libpdi_host.a"
	install -m 644 -- cli/foliobriar.1 "$$DESTDIR$$PREFIX/share/man/man1/foliobriar.1"
	scripts/pkg_config_file "$$PREFIX" $(CLI_VERSION) >target/cli/pdi.pc
	install -m 644 -- target/cli/pdi.pc "$$DESTDIR$$PREFIX/lib/pkgconfig/pdi.pc"

uninstall:
	rm -f -- "$$DESTDIR$$PREFIX/bin/foliobriar" "$$DESTDIR$$PREFIX/include/pdi.h" "$$DESTDIR$$PREFIX/lib/libpdi_host.a" \
		"$$DESTDIR$$PREFIX/lib/pkgconfig/pdi.pc" "$$DESTDIR$$PREFIX/share/man/man1/foliobriar.1"
