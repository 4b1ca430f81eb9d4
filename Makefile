# Kawsarpa. `make` proves every crate that changed; `make check` is quick; `make test` is the gate.
#
# Names: `tool` builds the command-line tool, kawsarpa, from the sources in tools/; the targets that end in -packages install what is
# missing of Debian's packages.

SHELL := bash
.SHELLFLAGS := -eu -o pipefail -c
.DELETE_ON_ERROR:
.NOTPARALLEL:
.PHONY: all prove check check-proofs check-packages test test-packages make-test ci toolchain format lint lint-packages refusers second \
  staticlib library programs boundary fuzz mutants peers tool tool-test install-test install uninstall demo demo-packages bench \
  bench-proofs bench-packages clean

archive := target/staticlib/libkawsarpa.a
second := tests/second/target/release/second
SECONDS = 60

all: prove

# prove every crate that changed since it was last proved
prove: toolchain
	rt all check

# The quick tests, for a change that is being made: the linters, the library's crates that changed since they were last proved, the C
# tests, the second program and its vectors. Not the verdict: nothing is proved from nothing, and no must-fail edit is tried.
check: toolchain check-packages make-test lint check-proofs library
	@echo "check: all quick tests hold; the gate is 'make test'"

# the crate of the exported functions, and those below it as far as they changed
check-proofs: toolchain
	cd crates/kawsarpa && rt check

# Everything. The library is built only of proved crates, so `rt ci` is first; its count of what passed is said again at the end, and
# before it whether this is another toolchain than that of rt.version.
test: toolchain test-packages make-test format lint second ci refusers library programs boundary tool-test install-test
	@tests/make/toolchain.sh
	@tail -n 1 target/ci.log

# every proof from nothing, the must-fail edits, the two programs; an edit that says nothing of a contract fails here, though not in `rt ci`
ci: toolchain
	mkdir -p target
	rt ci | tee target/ci.log
	@grep -q '^rt: ok' target/ci.log || { echo "ci: rt ci has no line 'rt: ok'" >&2; exit 1; }
	@! grep -E '^rt: ok.*, [0-9]+ bad' target/ci.log >&2 || { echo "ci: bad must-fail edits" >&2; exit 1; }

# the proofs were checked with the toolchain that rt.version names; another one is told, and used
toolchain:
	@tests/make/toolchain.sh

# what this file says of another toolchain, with an `rt` that is none
make-test:
	tests/make/run.sh

# Debian's packages of a list of NAME:PACKAGE, where the command or file NAME is missing
define install
	@missing=; \
	for pair in $(1); do \
	  command -v "$${pair%%:*}" >/dev/null || [ -e "$${pair%%:*}" ] || missing="$$missing $${pair#*:}"; \
	done; \
	if [ -n "$$missing" ] && [ "$$(id -u)" -ne 0 ]; then \
	  echo "missing; as root: apt-get install$$missing" >&2; exit 1; \
	elif [ -n "$$missing" ]; then \
	  echo "installing$$missing"; apt-get update -qq && apt-get install -y -qq $$missing; \
	fi
endef

# what the quick tests need
check-packages:
	$(call install,gcc:gcc g++:g++ nm:binutils cargo:cargo)

# what the tests beside the proofs need
test-packages:
	$(call install,git:git gcc:gcc g++:g++ nm:binutils cargo:cargo valgrind:valgrind mandoc:mandoc pkg-config:pkg-config jq:jq \
	  $(tool_needs))

# that what the documents list is there; the layout of the crates is judged by `rt ci`, which refuses any but that of `rt fmt`
format:
	tests/docs.sh

# what shellcheck, clang-format, rustfmt and clippy say of the sources that are not Rattle's, and that a finding is a failure
lint: lint-packages
	tests/lint.sh
	tests/make/lint.sh

# gcc links the build script of tests/boundary
lint-packages:
	$(call install,git:git shellcheck:shellcheck clang-format:clang-format gcc:gcc cargo:cargo rustfmt:rustfmt cargo-clippy:rust-clippy)

# what refuses each must-fail edit is what docs/MUST-FAIL.md says, by what `rt ci` printed: so behind `ci`
refusers: test-packages
	tests/docs.sh refusers

# the second program: its own tests, and the worked packets of docs/RULES.md
second:
	cd tests/second && cargo test --release --offline --quiet && cargo run --release --offline --quiet -- worked

# the archive is left as it is where it did not change, so that nothing is linked again
staticlib: toolchain
	cd crates/kawsarpa && rt lib
	@cmp -s crates/kawsarpa/out/libkawsarpa.a $(archive) || install -D -m 644 crates/kawsarpa/out/libkawsarpa.a $(archive)

# the header, and the exported functions called from C, also by the example of README.md and with cases of the second program
library: second staticlib
	tests/c/run.sh $(archive)
	tests/c/example.sh $(archive)
	tests/c/vectors.sh $(archive) $(second)

# the two programs; `worked` is given cases of the second program
programs: second
	cd crates/empty_table && rt run </dev/null | cmp - stdout
	cd crates/worked && rt run <stdin | cmp - stdout
	tests/program/empty_table.sh crates/empty_table/out/empty_table
	tests/program/worked.sh $(second) crates/worked/out/worked

# the library judged by the second program: a million cases, trips, threads, stack, valgrind
boundary: staticlib
	tests/boundary/run.sh $(archive)

# the same for SECONDS with new and mutated cases; without SEED, one that is printed
fuzz: staticlib
	KAWSARPA_LIB=$(CURDIR)/$(archive) cargo build --release --offline --quiet --manifest-path tests/boundary/Cargo.toml
	tests/boundary/target/release/boundary fuzz --seconds $(SECONDS) $(if $(SEED),--seed $(SEED))

# tshark, the kernel and osmo-ggsn judge what the library sends. Run as root; what is missing of Debian's packages is installed.
peers: test-packages staticlib
	tests/peers/run.sh $(archive)

# each rule of the second program changed in one place: the library's answers must show every change
mutants: test-packages staticlib
	tests/mutants/run.sh $(archive)

# the command-line tool, and the same with sanitizers for its tests
tool_needs := /usr/include/cyaml/cyaml.h:libcyaml-dev /usr/include/yaml.h:libyaml-dev /usr/include/pcap.h:libpcap-dev \
  clang-tidy:clang-tidy python3:python3
tool_sources := $(wildcard tools/*.c)
tool_flags := -std=c11 -D_GNU_SOURCE -g -Wall -Wextra -Wpedantic -Wshadow -Wconversion -Werror -I include \
  -DTOOLCHAIN='"$(shell cat rt.version)"' -ffile-prefix-map=$(CURDIR)=.
tool_libraries := -lcyaml -lyaml -lpcap
sanitizers := -fsanitize=address,undefined -fno-sanitize-recover=all

tool: test-packages staticlib target/tools/kawsarpa target/tools/kawsarpa-asan

# where it is missing; `staticlib` brings it up to date
$(archive):
	$(MAKE) --no-print-directory staticlib

target/tools/plain/main.o target/tools/asan/main.o: rt.version

target/tools/kawsarpa: $(tool_sources:tools/%.c=target/tools/plain/%.o) $(archive)
	gcc -o $@ $^ $(tool_libraries)

target/tools/kawsarpa-asan: $(tool_sources:tools/%.c=target/tools/asan/%.o) $(archive)
	gcc $(sanitizers) -o $@ $^ $(tool_libraries)

# the same with a library that errs, for the test of what `kawsarpa trip` compares
target/tools/kawsarpa-flipped: $(tool_sources:tools/%.c=target/tools/asan/%.o) tests/tools/flip.c $(archive)
	gcc $(tool_flags) $(sanitizers) -O1 -Wl,--wrap=kawsarpa_translate_ipv6 -o $@ $^ $(tool_libraries)

target/tools/plain/%.o: tools/%.c $(wildcard tools/*.h) include/kawsarpa.h
	@mkdir -p $(@D)
	gcc $(tool_flags) $(CPPFLAGS) -O2 -c -o $@ $<

target/tools/asan/%.o: tools/%.c $(wildcard tools/*.h) include/kawsarpa.h
	@mkdir -p $(@D)
	gcc $(tool_flags) $(CPPFLAGS) $(sanitizers) -O1 -c -o $@ $<

# the tool's sources read by clang-tidy, its commands driven, with the sanitizers, and the forwarder of examples/ held against it
tool-test: tool target/tools/kawsarpa-flipped second
	clang-tidy --quiet $(tool_sources) -- $(tool_flags) $(CPPFLAGS) 2>&1 | sed '/^[0-9]* warnings generated\.$$/d' # those of system headers
	tests/tools/tables.sh target/tools/kawsarpa-asan $(second)
	tests/tools/captures.sh target/tools/kawsarpa-asan
	tests/tools/bursts.sh target/tools/kawsarpa-asan
	tests/tools/icmp.sh target/tools/kawsarpa-asan
	tests/tools/promise.sh target/tools/kawsarpa-asan target/tools/kawsarpa-flipped
	tests/tools/safety.sh target/tools/kawsarpa-asan
	tests/tools/loss.sh target/tools/kawsarpa-asan
	tests/tools/match.sh target/tools/kawsarpa-asan
	tests/tools/echo.sh target/tools/kawsarpa-asan
	tests/tools/json.sh target/tools/kawsarpa-asan target/tools/kawsarpa-flipped
	tests/tools/forwarder.sh target/tools/kawsarpa-asan $(archive)
	python3 docs/trip.py | cmp - docs/trip.svg

# what is installed, in a directory of its own: files, a C program that finds the library, manual pages, completion
install-test: tool
	tests/install/run.sh
	tests/install/pages.sh target/tools/kawsarpa $(archive)
	tests/install/completion.sh target/tools/kawsarpa

# Installs tool, library, header, manual pages and completion under PREFIX; with DESTDIR into a tree of its own, which needs no root. What
# is missing is built. The library that is there is installed as it is: `make staticlib` brings it up to date, and needs the toolchain.
PREFIX ?= /usr/local
prefix = $(PREFIX)
exec_prefix = $(prefix)
bindir = $(exec_prefix)/bin
includedir = $(prefix)/include
libdir = $(exec_prefix)/lib
pkgconfigdir = $(libdir)/pkgconfig
datarootdir = $(prefix)/share
mandir = $(datarootdir)/man
bashcompletiondir = $(datarootdir)/bash-completion/completions

install_directories = "$(bindir)" "$(includedir)" "$(libdir)" "$(pkgconfigdir)" "$(mandir)"/man{1,3,5} "$(bashcompletiondir)"
install_files = "$(bindir)/kawsarpa" "$(includedir)/kawsarpa.h" "$(libdir)/libkawsarpa.a" "$(pkgconfigdir)/kawsarpa.pc" \
  "$(mandir)"/{man1/kawsarpa.1,man3/kawsarpa.3,man5/kawsarpa-table.5} "$(bashcompletiondir)/kawsarpa"

# the version in the header, and a directory as kawsarpa.pc says it
version = $(shell sed -n 's/^\#define KAWSARPA_VERSION_[A-Z]* \([0-9][0-9]*\)$$/\1/p' include/kawsarpa.h | paste -sd.)
under_prefix = $(patsubst $(prefix)/%,$${prefix}/%,$(1))

install: $(if $(wildcard target/tools/kawsarpa),,demo-packages) $(archive) target/tools/kawsarpa
	for directory in $(install_directories); do install -d "$(DESTDIR)$$directory"; done
	install -m 755 target/tools/kawsarpa "$(DESTDIR)$(bindir)/kawsarpa"
	install -m 644 include/kawsarpa.h "$(DESTDIR)$(includedir)/kawsarpa.h"
	install -m 644 $(archive) "$(DESTDIR)$(libdir)/libkawsarpa.a"
	sed -e 's|@version@|$(version)|' -e 's|@prefix@|$(prefix)|' -e 's|@includedir@|$(call under_prefix,$(includedir))|' \
	  -e 's|@libdir@|$(call under_prefix,$(libdir))|' packaging/kawsarpa.pc.in | \
	  install -m 644 /dev/stdin "$(DESTDIR)$(pkgconfigdir)/kawsarpa.pc"
	for page in kawsarpa.1 kawsarpa.3 kawsarpa-table.5; do \
	  sed 's|@version@|$(version)|' man/$$page | install -m 644 /dev/stdin "$(DESTDIR)$(mandir)/man$${page##*.}/$$page"; \
	done
	install -m 644 packaging/kawsarpa.bash "$(DESTDIR)$(bashcompletiondir)/kawsarpa"

# Removes these files. In a DESTDIR the directories go with them where they are empty then; elsewhere they may be the system's, and stay.
uninstall:
	for file in $(install_files); do rm -f "$(DESTDIR)$$file"; done
	[ -z "$(DESTDIR)" ] || for directory in $(install_directories); do \
	  [ ! -d "$(DESTDIR)$$directory" ] || (cd "$(DESTDIR)" && rmdir -p --ignore-fail-on-non-empty -- "$${directory#/}"); \
	done

# the yard example: tables compiled and matched, captures sent through whole trips; root is needed only where a package is missing
demo: demo-packages staticlib target/tools/kawsarpa
	@examples/yard/demo.sh target/tools/kawsarpa

demo-packages:
	$(call install,gcc:gcc $(filter-out clang-tidy:%,$(tool_needs)))

# what a call and an offer cost, in instructions and in time, beside the same written by hand in C and a plain copy
bench: bench-packages staticlib
	cargo build --release --offline --quiet --manifest-path tests/second/Cargo.toml
	bench/run.sh $(archive) $(second) target/bench

# what the check of each crate takes, in seconds and memory, one at a time and from nothing
bench-proofs: toolchain
	$(call install,python3:python3)
	python3 -B bench/check.py .

bench-packages:
	$(call install,gcc:gcc nm:binutils cargo:cargo valgrind:valgrind /usr/include/valgrind/callgrind.h:valgrind python3:python3)

clean:
	rm -rf target crates/*/out tests/second/target tests/boundary/target
