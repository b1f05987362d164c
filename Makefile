PREFIX ?= /usr/local
PROGRAM = crates/ccsds/out/ccsds

# The number of proofs or must-fail edits that run at once: as many as there are processors, but no more than free memory
# has 4 GB for, and at least one.
LANES = $(shell awk -v most="$$(nproc)" '/^MemAvailable/ { n = int($$2 / 4000000); print n < 1 ? 1 : n < most ? n : most }' /proc/meminfo)

SCRIPTS = $(addprefix tests/, command.sh limits.sh options.py sizes.py pipelines.py library.py refused.py guards.py definitions.py names.py fuzz.py)

.PHONY: all lib try show install install-library callers arm real test attack interop rows bench beside polite plain $(SCRIPTS)

# Proves and builds the program and its libraries, as many in parallel as there are processors. CPU=x86-64-v3 makes the code of the
# program, and of the library for C, for processors with AVX2; both are then larger and faster, and write the same files.
all:
	@tools/build.py ccsds $(if $(CPU),--cpu $(CPU))

# A first look, in a minute or two: runs the program on the samples, before anything is proved.
try:
	@tools/try.sh

# Builds the program, and shows the sample cube's file in hexadecimal.
show: all
	@$(PROGRAM) show < samples/small.cube

# Proves and builds the library for C in build/lib, or for another processor in build/TARGET, as TARGET=aarch64-unknown-linux-gnu.
lib:
	@tools/library.py $(if $(CPU),--cpu $(CPU)) $(TARGET)

# Installs the program, its manual page and its completion, and the library for C with its header, in PREFIX.
install: all install-library
	@tools/install.py program "$(PREFIX)" "$(DESTDIR)"

# Installs the library for C alone.
install-library: lib
	@tools/install.py library "$(PREFIX)" "$(DESTDIR)"

# Proves every crate from scratch, tries the must-fail edits, and runs the tests and the program. Then scripts test the
# proved program on files and devices, with little memory and few threads, on all its options, at the greatest sizes, with
# predictors in threads, with each of its memory allocations, reads and writes refused, and on damaged files; and one checks
# that each proved promise has its edits. The scripts run in parallel, and the output of each is printed when it ends.
test:
	@tools/proved.py before
	RT_JOBS=$(LANES) rt ci
	@tools/proved.py after
	@$(MAKE) --no-print-directory lib
	@$(MAKE) --no-print-directory --jobs="$$(nproc)" --output-sync $(SCRIPTS)

$(SCRIPTS):
	$@

# Tries all wrong code, edits of the gate and slips, or that of CRATES="a b" alone: the prover has to refuse each.
attack: all
	@tools/attack.py $(CRATES)

# Calls the library for C in every way: under sanitizers, in many threads, as C++, on 500 sets of parameters and 30,000 damaged files.
callers: all lib
	tests/library.py 2 500
	tests/callers.py

# Runs the library for C on ARM, under qemu.
arm: all lib
	@tools/library.py aarch64-unknown-linux-gnu
	tests/arm.py

# Compares the program with common compressors on a real scene, of Landsat 7, that a Debian package holds.
real: all
	bench/real.py

# Compares our block-adaptive bodies with those of libaec's program `aec`, in both directions.
interop: all plain
	tests/interop.py

# Compares the program with plain Rust that goes sample by sample, on 500 sets of parameters that a seed determines.
rows: all plain
	tests/rows.py

# Compares the speed of the benchmark program with that of plain Rust, and prints a table.
bench: plain
	@tools/build.py speed
	bench/compare.py

# Compares predictors in threads with one thread, on idle processors and on busy ones.
polite: all
	bench/polite.py

# Compares the program with common compressors, on a scene that resembles one of an imaging spectrometer.
beside: all plain
	bench/beside.py

plain:
	@cd bench && cargo build --release --quiet

# ---- Other languages

# The tests of the Python package, and 100 sets of parameters by Python's own library, are a part of `make test`.
SCRIPTS += tests/python_bindings.py
.PHONY: callers bindings tests/python_bindings.py
tests/python_bindings.py:
	$@

# The first of these that has NumPy; `apt install python3-numpy` adds it to Debian's own.
PYTHON = $(shell for it in python3 /usr/bin/python3; do $$it -c 'import numpy' 2> /dev/null && echo $$it && exit; done; echo python3)

# Compares the Python package, with NumPy, and the Rust crate with the program on 500 sets of parameters, runs all their tests, and runs the lines of
# docs/COMMAND.md, docs/LIBRARY.md and docs/ARCHIVE.md as they are pasted. It needs Cargo, pkg-config and NumPy.
bindings: all lib
	$(PYTHON) tests/python_bindings.py --numpy 1 500
	tests/rust_bindings.py 1 500
	PYTHON=$(PYTHON) tests/pages.py

callers: bindings
