# Canyonsieve: the library, its header, the program, their tests.
CFLAGS ?= -O2
PREFIX ?= /usr/local
DESTDIR ?=
STRICT = -Wall -Wextra -Wpedantic -Werror
LIBRARY = target/staticlib/libcanyonsieve.a
HEADER = include/canyonsieve.h
PROGRAM = target/bin/case_program
# The version of the interface, and two parts for releases that leave it as it is.
VERSION = $(shell sed -n 's/^.define CANYONSIEVE_VERSION //p' $(HEADER)).0.0
DEST = $(DESTDIR)$(PREFIX)
# Installed files for the tests, in a folder with a blank in its name.
STAGE = $(CURDIR)/target/a stage
CARGO = CARGO_TARGET_DIR="$(CURDIR)/target/second" CANYONSIEVE_LIB_DIR="$(CURDIR)/target/staticlib" cargo
SECOND = --release --offline --locked --manifest-path tests/second/Cargo.toml
BENCH = --release --offline --locked --manifest-path bench/Cargo.toml

.PHONY: all library header program install uninstall test c-test memcheck examples payroll second scripts documents \
	program-test twin fuzz bench clean

all: library program

# rt proves what changed and nothing else, so it decides what there is to do. It leaves what it built in the folder out of
# a crate; a program it also runs, here on its own standard input.
library:
	cd crates/canyonsieve && rt lib
	install -D -m 644 crates/canyonsieve/out/libcanyonsieve.a $(LIBRARY)

program:
	cd crates/case_program && rt run < stdin > /dev/null
	install -D -m 755 crates/case_program/out/case_program $(PROGRAM)

# The header by itself and the payroll programs, read by C and C++ compilers.
PAYROLL = payroll year
PAYROLL_FILES = $(PAYROLL:%=examples/%.c)
C_FILES = -include $(HEADER) -Iinclude -x c /dev/null $(PAYROLL_FILES)
CXX_FILES = -include $(HEADER) -Iinclude -x c++ /dev/null $(PAYROLL_FILES)
header:
	$(CC) -std=c99 $(STRICT) -fsyntax-only $(C_FILES)
	$(CC) -std=c11 $(STRICT) -fsyntax-only $(C_FILES)
	$(CXX) -std=c++17 $(STRICT) -fsyntax-only $(CXX_FILES)

# Copies what `make` built, and neither proves nor compiles anything: it may run as another user.
install:
	@test -f $(LIBRARY) && test -f $(PROGRAM) || { echo "nothing is built yet: run make first" >&2; exit 1; }
	install -d "$(DEST)/lib/pkgconfig" "$(DEST)/include" "$(DEST)/bin" "$(DEST)/share/man/man1" \
		"$(DEST)/share/doc/canyonsieve"
	install -m 644 $(LIBRARY) "$(DEST)/lib/libcanyonsieve.a"
	install -m 644 $(HEADER) "$(DEST)/include/canyonsieve.h"
	sed "s|@PREFIX@|$$(printf %s "$(PREFIX)" | sed 's/[&|\\]/\\&/g')|; s|@VERSION@|$(VERSION)|" canyonsieve.pc.in \
		> "$(DEST)/lib/pkgconfig/canyonsieve.pc"
	install -m 755 $(PROGRAM) "$(DEST)/bin/canyonsieve-case"
	install -m 644 man/canyonsieve-case.1 "$(DEST)/share/man/man1/canyonsieve-case.1"
	install -m 644 LICENSE docs/FRAMES.md docs/RULES.md "$(DEST)/share/doc/canyonsieve"

# Takes away what install put there.
uninstall:
	rm -f "$(DEST)/lib/libcanyonsieve.a" "$(DEST)/include/canyonsieve.h" "$(DEST)/lib/pkgconfig/canyonsieve.pc" \
		"$(DEST)/bin/canyonsieve-case" "$(DEST)/share/man/man1/canyonsieve-case.1"
	rm -rf "$(DEST)/share/doc/canyonsieve"

# The gate.
test:
	.ci/run

# Calls the library from C.
c-test: library header
	mkdir -p target/c
	$(CC) -std=c99 $(STRICT) $(CFLAGS) -Iinclude tests/c/calls.c $(LIBRARY) -o target/c/calls
	target/c/calls

# The same under valgrind.
memcheck: c-test
	valgrind -q --error-exitcode=1 target/c/calls

# Every example text gives its line.
examples: program
	for text in examples/*.txt; do $(PROGRAM) < $$text | cmp - $${text%.txt}.line || exit 1; done

# The payroll programs from installed files alone, by the flags that pkg-config gives, in C and C++; then uninstalled.
payroll: export PKG_CONFIG_PATH = $(STAGE)/lib/pkgconfig
payroll: library program
	rm -rf "$(STAGE)"
	$(MAKE) install DESTDIR= PREFIX="$(STAGE)"
	test "$$(pkg-config --modversion canyonsieve)" = "$(VERSION)"
	mkdir -p target/c
	for program in $(PAYROLL); do \
	    for compiler in "$(CC) -std=c99 -x c" "$(CXX) -std=c++17 -x c++"; do \
	        eval "$$compiler $(STRICT) $(CFLAGS) examples/$$program.c -x none \
	            $$(pkg-config --cflags --libs canyonsieve) -o target/c/$$program" || exit 1; \
	        target/c/$$program > target/c/$$program.out || exit 1; \
	        cmp target/c/$$program.out examples/$$program.out || exit 1; \
	    done; \
	done
	"$(STAGE)/bin/canyonsieve-case" < examples/printed.txt | cmp - examples/printed.line
	$(MAKE) uninstall DESTDIR= PREFIX="$(STAGE)"
	test -z "$$(find "$(STAGE)" -type f)"

# The second program: its own figures and the six mistakes, then held against the library, then rivals against the
# library's amounts.
second: library
	$(CARGO) test $(SECOND)
	$(CARGO) run $(SECOND) --bin compare
	$(CARGO) run $(SECOND) --bin rivals

# What the case program reads and writes, by its users' files, pipes and sockets.
program-test: library program
	$(CARGO) run $(SECOND) --bin program $(PROGRAM)

# What the second program makes of the scripts of `figures` and `running` is what their stdout holds. A line that
# differs is shown, the second program's (<) before the stored one (>).
scripts: library
	$(CARGO) build $(SECOND) --bin scripts
	for script in figures running; do \
	    target/second/release/scripts $$script < crates/$$script/stdin > target/$$script.lines || exit 1; \
	    cmp target/$$script.lines crates/$$script/stdout \
	        || { diff target/$$script.lines crates/$$script/stdout; exit 1; }; \
	done

# The documents: their blocks run by the library and the second program, their names and numbers looked up.
documents: library
	$(CARGO) run $(SECOND) --bin documents

# The twin of the benchmark: its own figures, then held against the library.
twin: library
	$(CARGO) test $(BENCH)
	$(CARGO) run $(BENCH) -- --compare

# A fuzzer over the calls, started from the examples. Not part of the gate.
FUZZ_SECONDS ?= 60
fuzz: library
	mkdir -p target/fuzz/corpus
	for text in examples/*.txt; do { printf x; cat $$text; } > target/fuzz/corpus/$$(basename $$text); done
	clang -g -O1 -fsanitize=fuzzer,address -Wall -Wextra -Werror -Iinclude tests/fuzz/calls.c $(LIBRARY) -o target/fuzz/calls
	target/fuzz/calls -max_total_time=$(FUZZ_SECONDS) -max_len=34000 -timeout=10 target/fuzz/corpus

# The time of a case over different texts, beside the twin's; then of a change of a year beside working its posts afresh,
# by a library of its own. Not part of the gate.
bench: library
	cd crates/timing && rt lib
	install -D -m 644 crates/timing/out/libtiming.a target/staticlib/libtiming.a
	$(CARGO) run $(BENCH)
	$(CARGO) run $(BENCH) --bin changes

clean:
	rm -rf target
