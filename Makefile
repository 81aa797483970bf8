# rows/      worked rows: input, output and status of one run each
# tests/     the program's own tests: what no contract can see, and random streams next to a plain model
# mutants/   wrong bodies that the prover has to refuse, beside those in crates/*/must-fail
# bench/     the streams and figures of make bench
# examples/  inputs of the commands, among them what the examples in the help read
# lib/       the header of the library for C, and what embeds it in C++, Rust, Python and CMake
# share/     the manual page and completions for shells, which tools/manual and tools/completions make of the help
# tools/     what stands behind these words, and opening and compare, which ask a node
# gated/     a host of the library that lives beside a node, with its own tests
.PHONY: help gate demo lib check setup test prove mutants try bench install uninstall build

PROGRAM := crates/gate/out/gate
CALLS := crates/gate_growth/out/gate_growth
CPU :=
CRATES :=
EXAMPLE := first-path
PREFIX := /usr/local
TOP = $(DESTDIR)$(PREFIX)
SHARED = $(TOP)/share/gate
DOCUMENTS = $(TOP)/share/doc/gate
MANUAL := share/man/man1/gate.1
COMPLETIONS := share/bash-completion/completions/gate share/zsh/site-functions/_gate share/fish/vendor_completions.d/gate.fish
LIBRARY := crates/gate_c/out/library
LIBRARY_FILES := include/gate.h include/gate.hpp lib/libgate_c.a lib/libgate_c.so.0 lib/libgate_c.so lib/pkgconfig/gate.pc \
	lib/cmake/gate/gate-config.cmake lib/cmake/gate/gate-config-version.cmake

define HELP
make gate      proves and builds the program, several crates at once, and says where it lies
               make gate CPU=x86-64-v3 compiles it for processors with AVX2 and BMI2
make demo      prints its replies to examples/first-path.txt, and why; without a built program it compiles one
               without the proofs, in two to four minutes, and keeps it as $(PROGRAM)-unproved;
               make demo EXAMPLE=replacement takes another example
make lib       proves and builds the library for C, and says in which folder it lies with its header
               (docs/LIBRARY.md); it may prove once more what make gate or make prove has proved;
               tools/unproved --library FOLDER compiles one without the proofs, to try hosts with
make check     what has to agree in the repository, and then the proofs of what changed since they last passed here: on
               a fresh clone of every crate, as make gate does
make setup     installs what make test would leave parts out for, by apt-get: tools/setup --missing says what that is
make test      every test that needs no proof, in about ten minutes on four processors: compiled without
               the proofs; on the proved program too, if make gate has built it
make prove     everything from nothing, in about two hours: proofs, must-fail edits, tests, the program;
               then the rows and the program's own tests on it; make prove LONG=1 with those that take
               more than a minute; make prove LIB=1 builds the library too, and tries it in C,
               C++, Rust and Python
make mutants   tries the wrong bodies of mutants/, which takes longer than make prove
               make mutants CRATES="gate_net gate_rpc" tries those of these crates
make try       the rows and the program's own tests alone, on the built program; the tests of
               single calls too, if make prove has built their program
make bench     what the program costs, in instructions and time; make bench LONG=1 with larger pools too
               bench/run --beside OTHER PROGRAM compares two programs
make install   puts the program that make gate built below PREFIX (/usr/local), with its manual page, completions
               for bash, zsh and fish, the documents, the examples and what goes beside a node (gate-opening,
               gate-compare, gated), and the library if make lib built it; DESTDIR stands before it;
               make uninstall takes all of it away
endef
export HELP

help:
	@echo "$$HELP"

gate: build
	@echo "$(PROGRAM)"

demo:
	@tools/need rt python3
	@tools/demo $(PROGRAM) $(EXAMPLE)

lib:
	@tools/need rt python3
	@tools/lib $(LIBRARY)
	@echo "$(LIBRARY)"

check:
	@tools/need rt python3
	@tools/consistent
	@rt all check

setup:
	@tools/need python3
	@tools/setup

test:
	@tools/need rt python3
	@tools/setup --missing || true
	@tools/test $(PROGRAM)

prove:
	@tools/need rt python3
	@tools/prove $(if $(LONG),--long) $(PROGRAM) $(if $(LIB),$(LIBRARY))

mutants:
	@tools/need rt python3
	@tools/mutants $(CRATES)

try: build
	@rows/run $(PROGRAM)
	@tests/run $(if $(LONG),--long) $(if $(wildcard $(CALLS)),--calls $(CALLS)) $(PROGRAM)

bench: build
	@tools/need valgrind
	@bench/run $(if $(LONG),--long) $(PROGRAM)

install:
	@test -x $(PROGRAM) || { echo "there is no program yet: make gate proves and builds it" >&2; exit 1; }
	install -D -m 755 $(PROGRAM) "$(TOP)/bin/gate"
	install -D -m 644 share/gate.1 "$(TOP)/$(MANUAL)"
	install -D -m 644 share/gate.bash "$(TOP)/$(word 1,$(COMPLETIONS))"
	install -D -m 644 share/_gate "$(TOP)/$(word 2,$(COMPLETIONS))"
	install -D -m 644 share/gate.fish "$(TOP)/$(word 3,$(COMPLETIONS))"
	install -D -m 644 -t "$(DOCUMENTS)" README.md LICENSE $(wildcard NOTICE CHANGELOG.md SECURITY.md)
	install -D -m 644 -t "$(DOCUMENTS)/docs" docs/*
	install -D -m 644 -t "$(DOCUMENTS)/gated" gated/README.md
	install -D -m 644 -t "$(SHARED)/examples" examples/*
	install -D -m 755 -t "$(SHARED)/tools" tools/opening tools/compare
	install -D -m 755 gated/bin/gated "$(TOP)/bin/gated"
	install -D -m 644 -t "$(SHARED)/gated/gated" gated/gated/*.py gated/gated/py.typed
	install -D -m 644 -t "$(SHARED)/gated/gated/node" gated/gated/node/*.py
	install -D -m 644 -t "$(SHARED)/gated" gated/share/gated.service gated/share/gated.toml
	sed -i 's|/usr/local/|$(PREFIX)/|g' "$(SHARED)/gated/gated.service" "$(SHARED)/gated/gated.toml"
	install -D -m 644 gated/share/gated.1 "$(TOP)/share/man/man1/gated.1"
	ln -sfn ../share/gate/tools/opening "$(TOP)/bin/gate-opening"
	ln -sfn ../share/gate/tools/compare "$(TOP)/bin/gate-compare"
	@test ! -d $(LIBRARY) || for file in $(LIBRARY_FILES) $$(cd $(LIBRARY) && find share/gate -type f); do \
		echo "$(TOP)/$$file"; \
		mkdir -p "$(TOP)/$$(dirname $$file)" || exit 1; \
		if [ -L $(LIBRARY)/$$file ]; then cp -P $(LIBRARY)/$$file "$(TOP)/$$file"; \
		else install -m 644 $(LIBRARY)/$$file "$(TOP)/$$file"; fi || exit 1; \
	done

uninstall:
	rm -rf "$(SHARED)" "$(DOCUMENTS)" "$(TOP)/lib/cmake/gate"
	rm -f "$(TOP)/bin/gate" "$(TOP)/bin/gate-opening" "$(TOP)/bin/gate-compare" "$(TOP)/bin/gated" "$(TOP)/share/man/man1/gated.1"
	rm -f $(foreach it,$(MANUAL) $(COMPLETIONS) $(LIBRARY_FILES),"$(TOP)/$(it)")

build:
	@tools/need rt python3
	@tools/build $(PROGRAM) $(CPU)
