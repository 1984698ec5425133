# `make run` shows a rule at work, from its text to its result, and one over the forms of a district; `make test` is the gate; `make compare`, a part of it, holds the compiled library
# against the second implementation and the vectors, and runs the command's tests.
.PHONY: run test compare library
beetle = cli/target/release/beetle
work = target/run

run: library
	cd cli && cargo build --quiet --offline --release
	mkdir -p $(work)
	$(beetle) assemble examples/child.txt -o $(work)/child.lst
	$(beetle) show $(work)/child.lst
	$(beetle) save $(work)/child.lst -o $(work)/child.mod
	$(beetle) run $(work)/child.mod --table code
	@$(beetle) forms examples/households.csv --record examples/household.record -o $(work)/forms >/dev/null
	@$(beetle) assemble examples/ages.txt -o $(work)/ages.lst >/dev/null
	@$(beetle) save $(work)/ages.lst -o $(work)/ages.mod >/dev/null
	head -n 3 examples/households.csv
	$(beetle) batch $(work)/ages.mod $(work)/forms --form-length 168 --address 400h --table code -o $(work)/aged.forms
	@$(beetle) forms $(work)/aged.forms --record examples/household.record --back --beside examples/households.csv -o $(work)/aged.csv
	head -n 3 $(work)/aged.csv

compare: library
	cd tests && cargo run --quiet --offline --release --features library --bin compare
	cd tests && cargo run --quiet --offline --release --features library --bin vectors
	cd cli && cargo test --quiet --offline

library:
	./tools/library

test:
	./.ci/run
