# Two commands: `make test` is the gate, `make run` shows the programs `import`, `show` and `tray` at work. `make compare` and `make bench` hold the calls
# against Rust's (those on records against Python's), `make firmware` tries the C header, `make footprint` measures the archive. These four are no
# part of the gate.
.PHONY: test run bench compare firmware footprint

# First the papers and the layout, then everything is proved: tools/ci runs rt ci, which also wants each file as rt fmt lays it out, and lets its
# 'N passed, M failed' through last, once every wrong body was seen refused by itself. After a failure make adds a line on stderr and exits with 2.
test:
	@python3 tools/check-layout
	@python3 tools/check-promises
	@python3 tools/check-header
	@python3 tools/check-papers
	@python3 tools/tray-model <crates/tray/stdin | cmp - crates/tray/stdout
	@python3 tools/import-model <crates/import/stdin | cmp - crates/import/stdout
	@python3 tools/show-model <crates/show/stdin | cmp - crates/show/stdout
	@python3 tools/ci

# First the program import on a worklist whose names have commas, quotes and a line break in them, then show on the stored text of a tray, then tray on
# paper 01's listing: its answers, and beside them what they say. What rt says goes to stderr. Programs are compiled for x86-64. The listing is the first LISTING lines of crates/tray/stdin; the gate's further cases come after it.
LISTING = 7
run:
	@tools/build import show tray
	@echo "import <examples/worklist.csv"
	@python3 tools/import <examples/worklist.csv
	@echo
	@echo "show <examples/tray.stored"
	@python3 tools/show <examples/tray.stored
	@echo
	@target/bin/tray <crates/tray/stdin | head -n $(LISTING) | python3 tools/show-run crates/tray/stdin

# The proved calls against Rust's own containers and the same rules by hand, and reading records against other readers, with rustc, on x86-64 or 64-bit
# Arm: prints the ratios and writes docs/PERFORMANCE.md. BENCH_ONLY=records prints those of records, BENCH_ONLY=stored those of stored texts that are
# read back, BENCH_ONLY=allowances those of the calls with an allowance to the plain ones; each writes nothing. Archives are x86-64; on Arm the same
# module is compiled for Arm (bench/native).
bench:
	@bench/run

# The program replay against Rust's own containers, with rustc: every short case, then random ones. Then the calls on records against a regular
# expression and Python's csv. MILLIONS=1 makes it shorter.
MILLIONS ?= 5
compare:
	@MILLIONS=$(MILLIONS) oracle/run

# The header as C links it, with cc: examples/firmware.c prints what examples/firmware.out has, and 100,000 random calls through the header leave what
# the program replay prints. SEED=2 makes other calls. Archives are x86-64; on another processor the same module is compiled for it (bench/native).
SEED ?= 1
firmware:
	@examples/firmware-run
	@ARCHIVE=target/firmware/libtumbrelice.a oracle/calls-run $(SEED)

# What the archive takes of a board, with objdump: bytes of code, data and stack of each call, to docs/FOOTPRINT.md. It fails at a stack of 1,024 bytes or
# more or one that can't be told, at data that can be written, at a division, and at a name left open but memmove and its like. `tools/footprint FILE`
# measures an archive that is there already.
footprint:
	@python3 tools/footprint
