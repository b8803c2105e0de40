# make demo    cuts the samples with the program as it stands, compiled with run-time checks and not proved
# make program proves the program and all below it, builds it as bin/tables and cuts the samples with it
# make test    the whole gate: every proof from nothing, each test, each program, the must-fail edits;
#              with MINUTES=n it ends after n minutes, and names what it skipped
# make bench   measures bin/tables against cp and plain Rust on a stream of about 250 MB, and on a tenth of it, and its commands on large
#              inputs of several types, on many columns and on many batches, after the six below
# make bench-tables   measures the latter alone
# make bench-memory   measures jobs of the memory layer against plain Rust
# make bench-flat   measures jobs of flat arrays and their builders against plain Rust
# make bench-nested   measures jobs of nested arrays against plain Rust
# make bench-builders   measures rows of cells that are pushed to columns against plain Rust
# make bench-metadata   measures schemas read from and written as metadata against a copy of its bytes
# make bench-columns   measures columns, files and streams read and written, against plain Rust and copies of the same bytes
# make definitions   runs the definitions of specs/ on worked values, on laid and damaged inputs against an independent reader, and on what
#              commands make of streams of every type against an independent model of them

RT ?= rt
PYTHON ?= python3 -B
PROGRAM = crates/tables_program

.PHONY: demo test bench bench-tables bench-memory bench-flat bench-nested bench-builders bench-metadata bench-columns definitions clean
.PHONY: program benches benches_format

# The worked values of the definitions.
WORKED = $(sort $(wildcard tools/definitions/worked*.py))

# How many inputs `make definitions` compares, and from which seed.
COUNT ?= 20000
SEED ?= 1

demo:
	$(PYTHON) tools/demo.py try $(RT)

# A program is built only once it and all below it are proved. It is then run without words, and
# its status is 3.
program: BEGUN := $(shell date +%s)
program:
	@mkdir -p bin
	@rm -f bin/tables $(PROGRAM)/out/tables_program
	@echo "proving and building $(PROGRAM); bin/build.log says how far it is"
	@cd $(PROGRAM) && { $(RT) run > ../../bin/build.log 2>&1; test $$? -eq 3; } \
		|| { tail -n 20 ../../bin/build.log; exit 1; }
	cp $(PROGRAM)/out/tables_program bin/tables
	@echo "proved and built in $$(( ($$(date +%s) - $(BEGUN) + 59) / 60 )) minutes"
	$(PYTHON) tools/demo.py run bin/tables

test: STARTED := $(shell date +%s)
test:
	$(PYTHON) tools/gate.py --selftest
	@for it in $(WORKED); do echo "$(PYTHON) $$it"; $(PYTHON) $$it || exit 1; done
	$(PYTHON) tools/definitions/compare.py --count 400 --seed 7
	$(PYTHON) tools/definitions/compare_commands.py --random 100
	$(PYTHON) tools/writer/arrow_commands.py check crates/tables_files/data crates/tables_files/stdout
	$(PYTHON) tools/gate.py --started $(STARTED) $(if $(MINUTES),--minutes $(MINUTES)) $(RT)

definitions:
	@for it in $(WORKED); do echo "$(PYTHON) $$it"; $(PYTHON) $$it || exit 1; done
	$(PYTHON) tools/definitions/compare.py --count $(COUNT) --seed $(SEED)
	$(PYTHON) tools/definitions/compare_commands.py

bench: program bench-memory bench-flat bench-nested bench-builders bench-metadata bench-columns
	$(PYTHON) tools/benches/bench.py cut bin/tables bin
	$(PYTHON) tools/benches/bench.py tables bin/tables bin

bench-tables: program
	$(PYTHON) tools/benches/bench.py tables bin/tables bin

bench-memory bench-flat bench-nested bench-builders: bench-%: benches
	$(PYTHON) tools/benches/bench.py $* bin/benches bin

bench-metadata bench-columns: bench-%: benches_format
	$(PYTHON) tools/benches/bench.py $* bin/benches_format bin

# The programs of jobs, of arrays and of the format.
benches benches_format:
	@mkdir -p bin
	@rm -f bin/$@ crates/$@/out/$@
	@echo "proving and building crates/$@; bin/$@.log says how far it is"
	@cd crates/$@ && $(RT) run > ../../bin/$@.log 2>&1 || { tail -n 20 ../../bin/$@.log; exit 1; }
	cp crates/$@/out/$@ bin/$@

clean:
	rm -rf bin
