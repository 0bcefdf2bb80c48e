# `rt ci` proves and tests everything; each of these shows one thing. `make demo`: what the programs do; `make planted`: that the contracts hold the code
# down; `make brute_force`: that the library agrees with trying all mappings; `make bench`: how fast it is beside others; `make damaged`: that damaged
# input is answered; `make measure`: how long each step takes.

.PHONY: demo planted brute_force bench damaged measure form alike

# Builds the two programs and runs them on the examples; fails if they print anything else than examples/demo.txt.
demo: form alike
	examples/demo "$(CURDIR)/target/bin" | tee target/demo.txt
	cmp target/demo.txt examples/demo.txt

# Proves and builds a program, which runs once on the input of its crate, and puts it into target/bin.
form alike:
	cd crates/$@ && rt run < /dev/null > /dev/null
	mkdir -p target/bin && cp crates/$@/out/$@ target/bin

# Plants bugs in the code, one at a time, and sees that each is refused, or shown by a run; writes docs/PLANTED_BUGS.md.
planted:
	python3 tools/planted_bugs.py

# Compares the library with all mappings of some thousand small graphs, and prints what was tried; fails if they disagree.
brute_force:
	cd crates/brute_force && rt run

# Builds the program that takes times, and runs it with 1 MiB of stack: it fails if the local arrays of what it calls and its own need more. What was
# done goes to standard output, the times to standard error.
measure:
	cd crates/measure && rt run > /dev/null 2>&1 || (cd crates/measure && rt run)
	ulimit -s 1024 && crates/measure/out/measure

# Builds both programs and the library and runs them on 100,000 damaged inputs, the library as C calls it, under valgrind and without: it fails if
# anything crashes, hangs, touches what it must not, or answers otherwise than can be told without a search. It builds and runs examples/entry.c too.
damaged:
	python3 tools/damaged_input.py

# Compares the library with plain C, nauty, bliss and rdflib; fails if one of them but rdflib disagrees on which graphs are isomorphic.
bench:
	python3 bench/run.py
