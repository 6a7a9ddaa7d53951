# hart: the HART protocol, proved.
#
#   make                      builds the proved program, ./hart
#   make quick                builds ./hart-unproved within two minutes, with nothing proved
#   make check                runs every proof and test, and tries the wrong bodies of which mistakes.lock does not tell, and some others;
#                             its last line counts what passed and failed
#   make check-all            tries every wrong body and every wrong definition, and then runs make check
#   make check-once           is make check without `rt ci`: it proves each crate once, and gives no verdict
#   make test                 proves every crate and runs every test and script, without the wrong bodies
#   make mistakes             tries the wrong bodies on which a change may bear, and writes mistakes.lock
#   make definitions          does the same with the wrong definitions; not part of make check
#   make refused-growths      refuses each allocation of ./hart and of each call in turn
#   make runs                 runs ./hart on rows of words and inputs, with reads and writes cut short
#   make streams              runs ./hart on streams that fail, and compares its help texts
#   make examples             runs the examples of help and pages on ./hart
#   make vectors              writes docs/vectors.tsv from what ./hart replies; make check compares it
#   make held-view            checks that the compiler rejects a push to a scanner while a view of it is held
#   make fuzz N=..            compares ./hart with a plain model on N random inputs; not part of make check
#   make manual               checks the man page and the bash completion against --help
#   make schema               checks the lines of explain --json against docs/explain.schema.json
#   make links                finds dead links in the pages
#   make report               tries hart-report on ./hart, also with Chromium and tidy if they are installed
#   make install PREFIX=DIR   installs hart, hart-listen, hart-ask, hart-report and hart-bench, their man pages, completion and guide below DIR
#   make library              builds build/libhart.a and build/libhart.so; TARGET=aarch64-linux-gnu builds those of build/aarch64-linux-gnu
#   make library-examples     makes each call of the library from C, and runs its examples against ./hart
#   make install-library PREFIX=DIR   installs the library, its header and hart.pc below DIR
#   make deb                  makes the packages hart, libhart0 and libhart-dev for Debian in build/packages; for arm64 the library alone
#   make dist                 makes tarballs of the same in build/packages
#   make packages             makes both in an empty folder, and tries them
#   make bench                measures dump, answer, explain and sim; it asserts no time
#
# With RT_JOBS=N in the environment the gate uses N processors, and N wrong bodies are tried side by side. Without it, all processors are
# used, as far as there is memory for so many proofs.

PREFIX ?= /usr/local
LIBDIR ?= lib
N ?= 10000
VERSION := $(shell sh tools/version.sh)
ARM = $(shell command -v aarch64-linux-gnu-gcc)
BUILT := build$(if $(TARGET),/$(TARGET))
TESTS := crates/hart_tests_cli/out/hart_tests_cli_tests
GUIDE := docs/GUIDE.md docs/COMMANDS.md docs/WIRE.md docs/FORMATS.md docs/explained.txt docs/worked.txt docs/report.png \
	docs/GLOSSARY.md docs/explain.schema.json
SOURCES := crates.txt $(shell find crates -name out -prune -o \( -name '*.rt' -o -name '*.antt' \) -print)

.PHONY: all quick check check-once check-all test mistakes definitions runs refused-growths streams examples vectors manual schema report held-view links library library-examples deb dist packages fuzz bench install install-report install-bench install-library clean

all: hart

hart: $(SOURCES)
	python3 tools/build.py
	cp crates/hart/out/hart $@

$(TESTS): $(SOURCES)
	python3 tools/build.py hart_tests_cli

quick:
	sh tools/quick.sh

check:
	bash tools/check.sh

check-once:
	bash tools/check.sh --once

check-all:
	python3 tools/mistakes.py --all
	python3 tools/mistakes.py --definitions --all
	python3 tools/mistakes.py --against-rattle
	bash tools/check.sh

test: hart
	python3 tools/build.py --whole
	sh tools/runs.sh
	sh tools/refused-growths.sh
	sh tools/streams.sh
	sh tools/examples.sh
	python3 tools/vectors.py ./hart --check
	python3 tools/serve.py ./hart
	python3 tools/vector_bugs.py
	python3 tools/vector_bugs.py --random ./hart
	python3 tools/bench.py ./hart
	sh tools/manual.sh
	python3 tools/schema.py ./hart
	sh tools/held-view.sh
	sh tools/library-examples.sh
	sh tools/packages.sh
	python3 tools/listen.py ./hart
	python3 tools/ask.py ./hart
	python3 tools/report.py ./hart
	python3 tools/links.py
	python3 tools/doc_examples.py

mistakes:
	python3 tools/mistakes.py
	python3 tools/mistakes.py --can-fail

definitions:
	python3 tools/mistakes.py --definitions

held-view:
	sh tools/held-view.sh

links:
	python3 tools/links.py

refused-growths: $(TESTS)

runs refused-growths streams examples manual packages: hart
	sh tools/$@.sh

library-examples: hart
	sh tools/$@.sh $(if $(TARGET),--target $(TARGET))

vectors: hart
	python3 tools/vectors.py ./hart

schema: hart
	python3 tools/schema.py ./hart

report: hart
	python3 tools/report.py ./hart
	python3 tools/report.py ./hart --can-fail

library:
	python3 tools/build.py hart_c
	mkdir -p $(BUILT)
	sh tools/library.sh $(if $(TARGET),--target $(TARGET)) $(BUILT)

fuzz: hart
	python3 tools/fuzz.py --cases $(N)

bench: hart
	python3 bench/dump.py
	python3 bench/answer.py
	python3 bench/explain.py
	python3 bench/sim.py

# hart-report needs no proof, and its test installs it below an empty folder.
install-report:
	install -d $(PREFIX)/bin $(PREFIX)/share/hart/hart_report $(PREFIX)/share/man/man1
	install -m 755 tools/hart-report $(PREFIX)/bin/hart-report
	install -m 644 tools/hart_report/*.py tools/hart_report/style.css $(PREFIX)/share/hart/hart_report
	install -m 644 docs/hart-report.1 $(PREFIX)/share/man/man1/hart-report.1

# HART is the program that is installed beside hart-bench.
HART ?= hart

install-bench:
	install -d $(PREFIX)/bin $(PREFIX)/share/hart/hart_bench $(PREFIX)/share/hart/fuzz $(PREFIX)/share/man/man1 $(PREFIX)/share/doc/hart
	install -m 755 $(HART) $(PREFIX)/bin/hart
	install -m 755 tools/hart-listen tools/hart-bench $(PREFIX)/bin
	install -m 644 tools/hart_bench/*.py $(PREFIX)/share/hart/hart_bench
	install -m 644 tools/fuzz/__init__.py tools/fuzz/frames.py $(PREFIX)/share/hart/fuzz
	install -m 644 docs/hart-listen.1 docs/hart-bench.1 $(PREFIX)/share/man/man1
	install -m 644 docs/vectors.tsv $(PREFIX)/share/hart
	ln -sf ../../hart/vectors.tsv $(PREFIX)/share/doc/hart/vectors.tsv

install: hart install-report install-bench
	install -d $(PREFIX)/share/bash-completion/completions
	install -m 644 docs/hart.1 $(PREFIX)/share/man/man1/hart.1
	install -m 755 tools/hart-ask $(PREFIX)/bin
	install -m 644 docs/hart-ask.1 $(PREFIX)/share/man/man1/hart-ask.1
	ln -sf hart $(PREFIX)/share/bash-completion/completions/hart-ask
	install -m 644 docs/hart.bash $(PREFIX)/share/bash-completion/completions/hart
	install -m 644 $(GUIDE) $(PREFIX)/share/doc/hart
	sed -i 's|(\.\./examples/|(examples/|g' $(PREFIX)/share/doc/hart/GUIDE.md
	install -d $(PREFIX)/share/doc/hart/examples/shell $(PREFIX)/share/doc/hart/examples/python
	install -m 644 examples/shell/* $(PREFIX)/share/doc/hart/examples/shell
	install -m 644 examples/python/*.py $(PREFIX)/share/doc/hart/examples/python

install-library: library
	install -d $(PREFIX)/include $(PREFIX)/$(LIBDIR)/pkgconfig
	install -m 644 include/hart.h $(PREFIX)/include/hart.h
	install -m 644 $(BUILT)/libhart.a $(PREFIX)/$(LIBDIR)/libhart.a
	install -m 755 $(BUILT)/libhart.so.0 $(PREFIX)/$(LIBDIR)/libhart.so.0
	ln -sf libhart.so.0 $(PREFIX)/$(LIBDIR)/libhart.so
	sed 's|@PREFIX@|$(PREFIX)|; s|@LIBDIR@|$(LIBDIR)|; s|@VERSION@|$(VERSION)|' include/hart.pc.in >$(PREFIX)/$(LIBDIR)/pkgconfig/hart.pc

# The library for arm64 is packed where its compiler is installed.
deb dist: hart library
	$(if $(ARM),$(MAKE) library TARGET=aarch64-linux-gnu,# no aarch64-linux-gnu-gcc: the library for arm64 is not packed)
	sh tools/$@.sh build/packages hart build $(if $(ARM),build/aarch64-linux-gnu)

clean:
	rm -rf build hart hart-unproved crates/*/out
