# make demo     runs indexrun on its example list, an index job of a table, and the bench sheet
# make test     proves every crate, tries every must-fail edit, runs the programs and the tests, and tries the misuse that
#               must not compile
# make example  links the library to a C program, plainly and under the sanitizers of gcc, and runs both
# make compare  holds the library and indexrun against a model of another hand, on random lists
# make bench    times the library against that model

.PHONY: demo test example compare bench library indexrun

# Proves and builds a program where that is to be done, and runs it. What the proof says is shown only where it fails.
run = (mkdir -p target && cd crates/$(1) && { rt run 2> ../../target/$(1).log || { cat ../../target/$(1).log; false; }; })

demo:
	@$(call run,indexrun) < crates/indexrun/stdin
	@$(call run,indexjob)
	@$(call run,benchsheet)

test:
	tests/gate

library:
	@mkdir -p target/staticlib
	@cd crates/volleyholly && { rt lib > ../../target/library.log 2>&1 || { cat ../../target/library.log; false; }; }
	cp crates/volleyholly/out/libvolleyholly.a target/staticlib/

indexrun:
	@$(call run,indexrun) < crates/indexrun/stdin
	mkdir -p target/bin
	cp crates/indexrun/out/indexrun target/bin/

example: library
	gcc -O2 -Wall -Wextra -std=c11 -I include examples/c/main.c -L target/staticlib -l volleyholly -o target/example
	target/example
	gcc -O2 -g -fsanitize=address,undefined -fno-sanitize-recover=all -Wall -Wextra -std=c11 -I include examples/c/main.c -L target/staticlib -l volleyholly -o target/example-sanitized
	target/example-sanitized

compare: library indexrun
	rustc --edition 2021 -O compare/main.rs -L target/staticlib -l static=volleyholly -o target/compare
	target/compare

bench: library
	rustc --edition 2021 -C opt-level=3 compare/bench.rs -L target/staticlib -l static=volleyholly -o target/bench
	target/bench
