# The few commands that a person types. `compare` and `bench` want the place of the original's files in
# MINIKALMAN_SRC.
.PHONY: help kit demo card prove test costs compare cards bench lib bindings
.DEFAULT_GOAL := help

help: ## these lines
	@awk -F ':.*## ' '/^[a-z]+:.*## / { printf "make %-9s %s\n", $$1, $$2 }' Makefile

kit:
	@sh checks/kit.sh

demo: kit ## a feeder's shift, proved and run: a table of readings, estimates and answers
	@bash checks/quiet.sh target/demo.log demo
	@echo
	@cat target/log/demo.stdout

card: kit ## the fitter's tool, proved: target/bin/card reads a settings card and prints it back, or what is wrong
	@bash checks/quiet.sh target/card.log card

prove: kit ## every crate that has changed, a line for each
	@bash checks/quiet.sh target/prove.log

test: kit ## the gate: proofs, wrong programs that must be refused, runs
	@bash .ci/run

costs: ## what the checks of the last `make prove` took, and how many edits the last gate tried
	@sh checks/costs.sh

compare: kit ## the Rust's own answers, bit for bit, at scale (MINIKALMAN_SRC, rustc)
	@bash oracle/compare.sh

cards: kit ## settings cards by chance, read and written by the archive and by a second reader and writer (rustc)
	@sh checks/cards.sh

bench: kit ## ours and the Rust, side by side, in nanoseconds (MINIKALMAN_SRC, rustc)
	@bash bench/run.sh

lib: kit ## the archive for C and Rust: target/lib/libyurgamysh.a
	@sh lib/build.sh

bindings: ## calls from C, C++ and Rust, every function and every refusal (a C compiler, cargo)
	@[ -f target/lib/libyurgamysh.a ] || sh checks/kit.sh
	@sh checks/bindings.sh
