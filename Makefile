# The commands of this repository; make alone lists them.
.PHONY: help lib list examples bench test

SHELL := bash
.SHELLFLAGS := -o pipefail -c

help:
	@echo 'make help       list these targets'
	@echo 'make lib        prove the library and write target/lib/libclassic.a and libclassic.so, for C on x86-64 to link'
	@echo 'make list FILE=examples/a.classic'
	@echo '                prove and build the listing program, where that is not done yet, and list a file'
	@echo 'make examples   write the files of examples/ again'
	@echo 'make bench      time the calls of the library against careful C of the same rules (bench/)'
	@echo 'make test       prove every crate, then run every outside test (tests/*/run)'

# Runs rt in a crate's folder, with a line on standard error for each crate that it proves, none for a crate that has not changed.
# All that rt prints is in a file below target/, and is shown when rt fails.
proved = mkdir -p target && \
	{ (cd crates/$(2) && rt $(1)) </dev/null 2>&1 | tee target/$(3) | \
	awk '/^crate / { name = $$2; sub(/:/, "", name) } /^logic=proved/ { print name " proved"; fflush() }' >&2 || \
	{ cat target/$(3) >&2; exit 1; }; }

# The library is for any x86-64 processor; the kit's own choice would ask for more of one. The linker is the kit's, which stands in
# the folder of the page that rt doc names.
lib:
	@echo 'make lib: proving the library, some minutes the first time ..' >&2
	@$(call proved,lib --cpu=x86-64,classic_c,lib.log)
	@mkdir -p target/lib
	@cp crates/classic_c/out/libclassic_c.a target/lib/libclassic.a
	@"$$(dirname "$$(rt doc)")/toolchain/bin/ld.lld" -m elf_x86_64 -shared \
		-soname libclassic.so --whole-archive target/lib/libclassic.a -o target/lib/libclassic.so
	@echo 'make lib: target/lib/libclassic.a and target/lib/libclassic.so are written' >&2

# rt run proves and builds the program where that is not done yet, and runs it, on no input; then it is run on the file.
list:
	@if [ -z "$$FILE" ]; then echo 'usage: make list FILE=examples/a.classic' >&2; exit 2; fi
	@if [ -d "$$FILE" ] || ! [ -r "$$FILE" ]; then echo "make list: $$FILE is not there or cannot be read" >&2; exit 2; fi
	@if ! [ -e crates/list/out/list ]; then \
		echo 'make list: proving and building the listing program, some minutes the first time ..' >&2; fi
	@$(call proved,run,list,list.log)
	@crates/list/out/list <"$$FILE"

examples:
	@examples/write

bench:
	@echo 'make bench: proving the library first, where that is not done yet, a few minutes the first time ..' >&2
	@bench/run

test:
	@tests/run
