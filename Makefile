# make run: proves and builds the program, and lists what it reports of a first example, and of one with a macro of a library.
# make demo: proves and builds the program, and shows the stored session: what an editor sends and what it is answered.
# make install: puts the program, hlasm-lint and hlasm-debug into PREFIX/bin, which is your own ~/.local/bin if you name
# no PREFIX, and says whether that is on your PATH.
# make dist: makes dist/hlasm_ls-VERSION-linux-x86_64.tar.gz, which needs no kit where it is unpacked. The version is that of the
# file VERSION.
# make test: the gate: proves every crate from nothing, tries at most six edits that must fail of each crate, runs everything.
# make edits: tries every edit that must fail, outside the gate.
# make bench: runs all measurements, on a machine with nothing else to do, and writes bench/README.md.
# All want the command rt of the kit on the PATH, and Python 3.
.PHONY: run demo install dist test edits bench build

PREFIX = $(HOME)/.local

program = crates/hlasm_ls
lint = clients/hlasm-lint
example = examples/first.hlasm
library = --related --root examples/library examples/library

# Frames, readably: a line for each header and each body.
show = awk '{ gsub(/\r/, ""); gsub(/Content-Length/, "\n&"); print }' | sed -e '/^$$/d' -e 's/^/  /'

run: build
	@echo; echo '$(lint) $(example)'
	@$(lint) $(example) || test $$? -eq 1
	@echo; echo '$(lint) $(library)'
	@$(lint) $(library) || test $$? -eq 1

demo: build
	@echo; echo 'The editor sends:'; cat $(program)/stdin | $(show)
	@echo; echo 'hlasm_ls serve answers:'; $(program)/out/hlasm_ls serve < $(program)/stdin | $(show)

install: build
	@tools/install.sh $(DESTDIR)$(PREFIX)/bin $(PREFIX)/bin

dist: build
	tools/dist.sh

test:
	tools/test.sh

edits:
	tools/edits.sh

bench:
	bench/all.py

# Only what the program stands on, side by side; with no change since, it only says so.
build:
	tools/build.py hlasm_ls
