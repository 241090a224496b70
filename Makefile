SHELL := bash
.SHELLFLAGS := -eu -o pipefail -c
ZONE := crates/zone_main
PREFIX ?= /usr/local
# What the program is made of.
SOURCES := crates.txt HANDLES $(shell find crates -name out -prune -o \( -name '*.rt' -o -name '*.antt' \) -print)

# The program on its first zone, before any proof; what it writes is shown as octets.
run: | toolchain
	@echo "The program is compiled first, without its proofs: that takes a minute or two."
	@mkdir -p build
	@cd $(ZONE) && { rt try -- $$(cat args) < stdin > ../../build/run.out 2> ../../build/run.log || { cat ../../build/run.log >&2; exit 1; }; }
	@echo; echo "'zonewire $$(paste -sd' ' $(ZONE)/args)' reads this zone:"; echo; cat $(ZONE)/stdin
	@echo; echo "and writes these octets:"; echo; od -An -v -tx1 build/run.out

# Every test without a proof: test functions, rows, the stored runs of the program and of the examples; and first that the two pictures
# are those of crates.txt and docs/PERFORMANCE.md, that the man pages have every option and fault text, and the examples in C and Python if
# `make c` has built their library. JOBS=N runs so many crates at once, CRATES="a b" these alone.
test: | toolchain
	@python3 tools/crates_picture.py --check
	@python3 bench/picture.py --check
	@python3 tools/man_page.py
	@python3 tools/c_examples.py
	@python3 tools/test.py $(if $(JOBS),--jobs $(JOBS)) $(if $(CRATES),--only $(CRATES))

# The gate: every proof from nothing, the must-fail edits, the tests, the programs as two compilers build them.
prove: | toolchain
	@python3 tools/prove.py

# Each single change of the must-fail edits by itself, where the gate tries one file of a crate at once. JOBS and CRATES as for `test`.
edits: | toolchain
	@python3 tools/edits.py $(if $(JOBS),--jobs $(JOBS)) $(CRATES)

# The programs with each of their requests for memory refused in turn, and zonewire in small memory. JOBS=N runs so many at once,
# CRATES="a b" these programs alone. It takes the proved programs where `make build` or the gate made them, else those of `rt try`.
memory: | toolchain
	@python3 tools/memory.py $(if $(JOBS),--jobs $(JOBS)) $(if $(CRATES),--only $(CRATES))

# The picture of the crates, docs/crates.svg, from crates.txt, and that of the times, docs/performance.svg, from docs/PERFORMANCE.md.
picture:
	@python3 tools/crates_picture.py
	@python3 bench/picture.py

# The proved programs, at build/zonewire and build/zonetool.
build: build/zonewire build/zonetool
	@echo "The proved programs are at build/zonewire and build/zonetool."

build/zonewire build/zonetool &: $(SOURCES) | toolchain
	@python3 tools/build.py

# The proved library for C, at build/libzonewire.a and build/libzonewire.so, and the examples in C and Python over it.
c: build/libzonewire.so
	@python3 tools/c_examples.py --must

build/libzonewire.so: $(SOURCES) include/zonewire.h tools/c_library.py | toolchain
	@python3 tools/c_library.py

# Copies the programs and their man pages to bin/ and share/man/man1/ of PREFIX, and what `make c` has built, with its header, to lib/ and
# include/. DESTDIR comes before PREFIX, as packages want it.
install:
	@for it in zonewire zonetool; do test -x build/$$it || \
		{ echo "There is no build/$$it to install yet: run 'make build' first, which proves the programs." >&2; exit 1; }; done
	install -d "$(DESTDIR)$(PREFIX)/bin" "$(DESTDIR)$(PREFIX)/share/man/man1"
	install -m 755 build/zonewire build/zonetool "$(DESTDIR)$(PREFIX)/bin"
	install -m 644 docs/zonewire.1 docs/zonetool.1 "$(DESTDIR)$(PREFIX)/share/man/man1"
	@if test -f build/libzonewire.so; then set -x; \
		install -d "$(DESTDIR)$(PREFIX)/lib" "$(DESTDIR)$(PREFIX)/include"; \
		install -m 644 include/zonewire.h "$(DESTDIR)$(PREFIX)/include/zonewire.h"; \
		install -m 644 build/libzonewire.a "$(DESTDIR)$(PREFIX)/lib/libzonewire.a"; \
		install -m 755 build/libzonewire.so "$(DESTDIR)$(PREFIX)/lib/libzonewire.so"; \
	else echo "The library for C is not installed, since it was not built: make c"; fi

# Processor time and memory of the proved program, beside other zone readers that are installed (an idle machine, please).
bench: build/zonewire
	@python3 bench/measure.py build/zonewire

# What each program of rows is asked, and what it answers, side by side.
rows:
	@for it in crates/*_rows; do \
		[ -f "$$it/stdin" ] || continue; echo "$${it#crates/}:"; paste -d'\t' "$$it/stdin" "$$it/stdout"; echo; done

toolchain:
	@command -v rt > /dev/null || { echo "The Rattle toolchain is missing: no command 'rt' is on the PATH." >&2; exit 1; }

.PHONY: run test prove edits memory picture build c install bench rows toolchain
