# make quick       builds the program as ./rv in minutes, with no proof, and runs an example with it
# make             proves and builds the program as ./rv, and runs the example
# make check       runs the cases of tests/ over ./rv, whichever of both made it, in about a minute; where Chromium is
#                  installed it makes the page too, if there is none of today's sources, and uses it
# make refused     refuses each request for memory of ./rv and of the library's calls in turn
# make test        the whole gate: every proof from nothing, the must-fail edits, the tests, the programs and their cases,
#                  and what each crate cost
# make library     proves and builds librv.a and librv.so in out/library; make quick-library, with no proof, in
#                  out/quick-library
# make check-library  runs programs in C, C++, Rust and Python over that library
# make page        makes page/, on which rv runs in a browser: by the proved library if make library has made it
# make definitions prints the definitions on which all that is proved rests, in reading order
# make lint        looks at the layout and the rules of the Python and shell files
# make reached     lists the functions of rv that no case of tests/ reaches
# make bench       measures rv beside GNU's tools, qemu-riscv64 and an interpreter in C, where they are installed,
#                  and prints the table of targets last
# make growth      draws how time and memory grow: bench/growth.svg
# make install     PREFIX=/usr/local by default; the proved program, which it proves first unless make has, the man
#                  page and the completions of shells, and an assembler for gcc -B PREFIX/libexec/rv/
#                  and the library, its header, and rv.pc for pkg-config (make install-library: these alone)

PREFIX ?= /usr/local
TO = $(DESTDIR)$(PREFIX)
EXAMPLE := examples/exit7.s
PROGRAM := crates/rv_cli/out/rv_cli
# What the program is made of: no test crate, and no edit that must fail; and what the library has beside it.
NOT_BUILT := -name out -o -name must-fail
FILES := $(shell find crates \( $(NOT_BUILT) -o -name '*_tests' -o -name rv_library \) -prune -o -type f -print)
SOURCES := crates.txt $(FILES)
OF_LIBRARY := $(shell find crates/rv_library \( $(NOT_BUILT) \) -prune -o -type f -print)
OF_LIBRARY += include/rv.h scripts/library.py

# ./rv is a copy of the program that was made last. Each has a file of its own, so `make` makes the proved one however
# new an unproved one is.
PROVED := out/proved/rv
UNPROVED := out/quick/rv
# It notes which of its functions are entered, and is not proved.
COUNTED := out/counted/rv
# The library for other languages, proved and not, and its version.
LIBRARY := out/library
QUICK_LIBRARY := out/quick-library
VERSION := $(shell sed -n 's/^.define RV_VERSION "\(.*\)"/\1/p' include/rv.h)

# The page, and the library's code for it.
PAGE := page
PAGE_CODE := out/page/rv.wasm
OF_PAGE := $(shell find web -type f) $(wildcard examples/*.s docs/manual/*.md) scripts/page.py scripts/language.py

.PHONY: all quick proved check refused test library quick-library check-library page definitions lint reached bench
.PHONY: growth install install-library clean

all: proved
	$(RUN_EXAMPLE)

define RUN_EXAMPLE
@echo "rv run $(EXAMPLE)"
@./rv run $(EXAMPLE) </dev/null; echo "exit status $$?"
endef

quick: $(UNPROVED)
	@cp -f $(UNPROVED) rv
	$(RUN_EXAMPLE)
	@echo "Nothing of this ./rv is proved; make proves and builds it."

proved: $(PROVED)
	@cp -f $(PROVED) rv

# A program bears its crate's name; it is copied under its own, with its mark.
$(PROVED): $(SOURCES)
	scripts/build.py rv_cli
	scripts/marks.py $(PROGRAM) $(PROVED)

$(UNPROVED): $(SOURCES)
	scripts/quick.py rv_cli $(UNPROVED)

$(COUNTED): $(SOURCES)
	mkdir -p $(@D)
	scripts/counted.py rv_cli $(COUNTED)

# (where there is none, or one of older sources)
rv: $(SOURCES)
	$(MAKE) --no-print-directory proved

rv_refusal_tests: $(SOURCES) $(shell find crates/rv_refusal_tests -name out -prune -o -type f -print)
	scripts/build.py rv_refusal_tests
	cp crates/rv_refusal_tests/out/rv_refusal_tests rv_refusal_tests

check: rv
	tests/run.py
	tests/agreeing.py
	tests/damaged.py
	tests/explained.py
	tests/documents.py
	scripts/pictures.py --check
	tests/shells.py
	tests/terminal.py
	tests/streams.py
	tests/editors.py
	tests/gdb.py
	tests/carried.py
	tests/making.py
	tests/page.py --make
	scripts/links.py
	scripts/want_of_memory.py
	scripts/definitions.py
	scripts/trusted.py --check
	scripts/storeys.py
	scripts/copies.py
	scripts/lib_lines.py

refused: rv rv_refusal_tests
	tests/refused.py

test:
	scripts/test.py

library: $(LIBRARY)/librv.a

quick-library: $(QUICK_LIBRARY)/librv.a

$(LIBRARY)/librv.a: $(SOURCES) $(OF_LIBRARY)
	scripts/library.py $(LIBRARY)

$(QUICK_LIBRARY)/librv.a: $(SOURCES) $(OF_LIBRARY)
	scripts/library.py --quick $(QUICK_LIBRARY)

check-library:
	tests/library.py

page: $(PAGE)/data/facts.json

$(PAGE)/data/facts.json: $(PAGE_CODE) $(OF_PAGE)
	scripts/page.py $(PAGE) $(PAGE_CODE)

$(PAGE_CODE): $(SOURCES) $(OF_LIBRARY) $(wildcard web/wasm/*.c $(LIBRARY)/librv.a)
	scripts/page.py --code $(PAGE_CODE)

definitions:
	@scripts/trusted.py

lint:
	scripts/lint.sh

reached: $(COUNTED)
	tests/reached.py $(COUNTED)

bench: rv
	python3 bench/run.py
	python3 bench/targets.py

growth: rv
	python3 bench/growth.py

install: proved install-library
	install -D -m 755 rv $(TO)/bin/rv
	install -D -m 755 scripts/as.sh $(TO)/libexec/rv/as
	scripts/manual_page.py | install -D -m 644 /dev/stdin $(TO)/share/man/man1/rv.1
	./rv completions bash | install -D -m 644 /dev/stdin $(TO)/share/bash-completion/completions/rv
	./rv completions zsh | install -D -m 644 /dev/stdin $(TO)/share/zsh/site-functions/_rv
	./rv completions fish | install -D -m 644 /dev/stdin $(TO)/share/fish/vendor_completions.d/rv.fish

install-library: library
	install -D -m 644 include/rv.h $(TO)/include/rv.h
	install -D -m 644 $(LIBRARY)/librv.a $(TO)/lib/librv.a
	install -D -m 755 $(LIBRARY)/librv.so.$(VERSION) $(TO)/lib/librv.so.$(VERSION)
	cp -P $(LIBRARY)/librv.so.? $(LIBRARY)/librv.so $(TO)/lib
	sed 's|@PREFIX@|$(PREFIX)|; s|@VERSION@|$(VERSION)|' include/rv.pc.in | install -D -m 644 /dev/stdin $(TO)/lib/pkgconfig/rv.pc

clean:
	rm -rf rv rv_refusal_tests out $(PAGE) crates/*/out
