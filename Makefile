# make try      the program on an example in a minute or two, without its proof
# make run      proves and builds the program, and checks a trace that has a race
# make build    leaves the proved program at build/hgd
# make quick    the tests that need no proof, on the built program, in two minutes
# make scenarios  proves and builds the program that runs tests/scenarios, and runs them
# make test     proves all crates from nothing, and tries what no proof says
# make mutants  tries every wrong program, also those that make test leaves out (dev/mutants)
# make install  copies the program to PREFIX/bin, with its manual page, and the recorder where it is built (PREFIX is /usr/local,
#               DESTDIR goes before it)
# make deb      makes a Debian package of the program and the recorder, at build
# make recorder builds what records traces of pthread programs, at build/recorder (not proved; needs a C compiler)
# make bench    speed and memory beside the yardstick (needs rustc)
# make picture  draws docs/graph-example.svg anew (needs Graphviz)

PREFIX ?= /usr/local

# What the program is made of; what `rt` made is no source.
SOURCES := crates.txt $(shell find crates -type d \( -name out -o -name must-fail -o -name mutants \) -prune -o -type f -print)

.PHONY: try run build quick scenarios test mutants install deb recorder bench picture clean

try:
	@echo 'hgd check < examples/unordered-writes.trace, built without its proof:'
	@cd crates/hgd && rt try -- check < ../../examples/unordered-writes.trace
	@echo 'This program is not proved. make run proves it, and leaves it at build/hgd.'

run: build/hgd
	build/hgd check < examples/unordered-writes.trace

build: build/hgd

build/hgd: $(SOURCES)
	dev/build hgd
	cp crates/hgd/out/hgd $@.new
	mv $@.new $@

quick: build/hgd
	tests/quick build/hgd

scenarios:
	dev/build hg_test_trials
	tests/run-scenarios crates/hg_test_trials/out/hg_test_trials

test:
	tests/run-all

mutants:
	dev/mutants --all

install: build/hgd
	packaging/install "$(PREFIX)" "$(DESTDIR)"

deb: build/hgd recorder
	packaging/deb

recorder:
	$(MAKE) -C recorder

bench: build/hgd
	bench/compare
	bench/store

# The bench's own programs, for the processors that `rt` builds for.
RUSTC := rustc --edition 2021 -C opt-level=3 -C codegen-units=1 -C panic=abort -C target-cpu=x86-64-v2

build/bench/yardstick: $(wildcard bench/yardstick/*.rs)
	mkdir -p build/bench
	$(RUSTC) bench/yardstick/main.rs -o $@

build/bench/%: bench/%.rs
	mkdir -p build/bench
	$(RUSTC) $< -o $@

picture: build/hgd
	build/hgd graph < examples/two-rounds-of-work.trace | tools/graph-to-dot | dot -Tsvg > docs/graph-example.svg

clean:
	rm -rf build
