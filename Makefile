.PHONY: run test programs lib install

# Proves and builds everything, then runs bench-run on chart A of document 01 and its trace.
run:
	rt all check
	@$(MAKE) -s programs lib
	@cd crates/bench_run/data && ../../../tools/run bench_run < ../stdin

test:
	bash .ci/run

# The programs, each in out/ in its crate's folder. `rt run` builds one and runs it, here without a chart, and what that prints is of no use.
programs:
	cd crates/bench_run && rt run < /dev/null > /dev/null
	cd crates/weigh_page && rt run < /dev/null > /dev/null

# The library for C and C++: build/libtolwaziho.a and build/tolwaziho.h.
lib: build/libtolwaziho.a

build/libtolwaziho.a: include/tolwaziho.h crates.txt $(wildcard lib/*) $(shell find crates -mindepth 2 -name out -prune -o -print)
	lib/build

# The library in PREFIX, with a file for pkg-config.
PREFIX = /usr/local
install: lib
	install -D -m 644 build/libtolwaziho.a "$(PREFIX)/lib/libtolwaziho.a"
	install -D -m 644 build/tolwaziho.h "$(PREFIX)/include/tolwaziho.h"
	install -D -m 644 lib/tolwaziho.pc "$(PREFIX)/lib/pkgconfig/tolwaziho.pc"
