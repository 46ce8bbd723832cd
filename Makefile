# make         proves the programs and builds them to build/; it says how far it is
# make demo    the same, and then runs the main job on real files
# make lib     proves the library for C, and puts libomf.a and omf.h into build/
# make install PREFIX=..   puts the programs, manuals and all else that users get below a prefix, /usr/local if left out; DESTDIR is honoured
# make uninstall PREFIX=.. removes that again
# make dist    packs the sources, a release of the programs and a Debian package into build/dist/
# make ports   builds the programs for other systems, of those whose compilers are there (docs/PORTS.md)
# make try     runs the demo's commands on an unproved build, in a minute or two; tools/try ARGUMENTS.. runs any command so
# make check   runs every test, stored run and example on unproved builds, in some minutes; it proves nothing
# make test    the gate: proves everything, tries each must-fail edit, and runs every test and example
# make times   the gate from nothing, and what each crate costs it
# make bench   measures the program's speed, and writes the figures to bench/FIGURES.md
# make refuse  runs the examples, and the loader's calls, with each allocation refused in turn

PREFIX ?= /usr/local

.PHONY: build demo lib install uninstall dist ports try check test times bench refuse

build:
	tools/build

demo: build
	examples/demo

lib:
	tools/lib

# Where root installs, python leaves nothing of root's in the tree.
install:
	DESTDIR='$(DESTDIR)' PYTHONDONTWRITEBYTECODE=1 tools/install '$(PREFIX)'

uninstall:
	DESTDIR='$(DESTDIR)' PYTHONDONTWRITEBYTECODE=1 tools/install --remove '$(PREFIX)'

dist:
	tools/dist

ports:
	tools/port

try:
	tools/try

check:
	tools/check

test:
	.ci/run

times:
	mkdir -p build
	tools/gate-times watch build/gate.log
	tools/gate-times build/gate.log

bench: build
	bench/all build/omf

refuse: build
	tools/refuse build/omf
	@[ -x crates/loader_tests/out/loader_tests_tests ] || (cd crates/loader_tests && rt test)
	tools/refuse-calls
