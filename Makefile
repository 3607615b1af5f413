# The commands of this repository. Each needs the Rattle toolchain's `rt` on the PATH.

programs := replay check_table session_demo
program = $(CURDIR)/crates/$(1)/out/$(1)
survey := crates/replay

.PHONY: help build demo bench test

help:
	@echo 'make demo    prove and build replay, check_table and session_demo, and run them on the bundled survey'
	@echo 'make bench   prove and build replay, and compare its time with a plain Rust program (needs rustc and python3)'
	@echo 'make test    the gate: every crate proved from nothing, the must-fail edits tried, the programs run'
	@echo 'make help    these lines'

# `rt run` proves a program and all that it uses, links it as out/NAME in its folder, and runs it, here on nothing.
build:
	@mkdir -p target
	@echo 'rt run in crates/NAME of: $(programs) (some minutes the first time; what it prints is in target/demo.log)'
	@: >target/demo.log
	@for p in $(programs); do \
	  (cd "crates/$$p" && rt run </dev/null) >>target/demo.log 2>&1 || { cat target/demo.log; exit 1; }; \
	  [ -x "crates/$$p/out/$$p" ] || { echo "rt run left no crates/$$p/out/$$p"; exit 1; }; \
	done
	@grep '^logic=proved' target/demo.log || true

# replay and check_table read table.dat in the folder that they are run in.
demo: build
	@echo
	@echo 'The bundled table, $(survey)/data/table.dat, in hexadecimal:'
	@od -An -v -tx1 '$(survey)/data/table.dat'
	@echo 'check_table says of it:'
	@cd '$(survey)/data' && '$(call program,check_table)'
	@echo
	@echo 'The query text, $(survey)/stdin, with the numbers of its lines:'
	@cat -n '$(survey)/stdin'
	@echo
	@echo 'replay answers, by line:'
	@cd '$(survey)/data' && '$(call program,replay)' <../stdin
	@echo
	@echo 'The same text with no file table.dat:'
	@room=$$(mktemp -d) && trap 'rm -rf "$$room"' EXIT && cd "$$room" && '$(call program,replay)' <'$(CURDIR)/$(survey)/stdin'
	@echo
	@echo 'A session, call by call:'
	@'$(call program,session_demo)'

bench: programs := replay
bench: build
	@mkdir -p target/bench
	rustc -O --edition 2021 bench/plain/replay.rs -o target/bench/plain
	python3 bench/run '$(call program,replay)' target/bench/plain

test:
	bash .ci/run
