MONITOR = target/bin/monitor
CALLS = examples/booking.calls

.PHONY: help test run explain accounts objects modes compare panel bench index
help:
	@echo 'make run [CALLS=FILE]      answers examples/booking.calls, or the call lines in FILE'
	@echo 'make explain [CALLS=FILE]  the same, each line beside its answer in words'
	@echo 'make accounts [CALLS=FILE] the pages on each account behind the same call lines'
	@echo 'make objects [CALLS=FILE]  the objects behind them: base, pages, account, number of passwords, and 1 for a registration'
	@echo 'make modes                 prints the mode rule, 1 or 0 for each mode from 0 to 255, one a line'
	@echo 'make test                  the gate: proves every crate from nothing, tries the must-fail edits, and runs the second implementation beside the program and the C functions'
	@echo 'make compare               runs the second implementation beside the program, without the proofs'
	@echo 'make panel                 builds target/panel/libreshqobi.a, for C and Rust, and runs both clients on the booking example'
	@echo 'make bench                 counts instructions and times of the program beside the second implementation'
	@echo 'make index [NAME=NAME]     where a definition, a law, a type or a function stands, by its name; all of them without one'
	@echo 'All but test and index build the program only where it is missing or older than its code. make MONITOR=FILE .. takes another program.'

test:
	@# Only the crate judge and the module that computes examples may open the judgement.
	@! grep -rl 'Judged\.Inside' crates --include=*.antt --exclude-dir=out | grep -v -e '^crates/judge/' -e '^crates/cases/specs/Runs\.antt$$'
	@# The examples open it by the name by_search; no other crate may use that.
	@! grep -rl 'by_search' crates --include=*.antt --exclude-dir=out | grep -v -e '^crates/cases/' -e '^crates/isolation_examples/'
	@tests/run $(MONITOR)

run: $(MONITOR)
	@$(MONITOR) < $(CALLS)

explain: $(MONITOR)
	@$(MONITOR) < $(CALLS) | tests/cargo run --release --offline --quiet --bin explain -- $(abspath $(CALLS))

accounts: target/bin/accounts
	@target/bin/accounts < $(CALLS)

objects: target/bin/objects
	@target/bin/objects < $(CALLS)

modes: target/bin/modes
	@target/bin/modes

compare: $(MONITOR)
	@tests/beside $(MONITOR)

panel: target/panel/libreshqobi.a
	@clients/run

bench: $(MONITOR)
	@tests/cargo build --profile speed --offline --quiet
	@tests/cargo run --profile speed --offline --quiet --bin bench -- $(abspath $(MONITOR)) $(abspath target/bench)
	@tests/panel/bench $(abspath target/bench)

index:
	@tests/index $(NAME)

target/bin/%: crates.txt $(wildcard crates/*/src/*.rt)
	@tests/build $*
	@touch -c $@

target/panel/libreshqobi.a: crates.txt $(wildcard crates/*/src/*.rt)
	@tests/archive
	@touch -c $@
