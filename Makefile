# make demo          builds the library, the planner and the workshop's program, and shows a result
# make programs      builds build/bin/planner, build/bin/workshop and build/bin/grid with this machine's own compiler
# make test          compares with the Rust, tests the programs and the C boundary, and proves everything; its last line is the prover's count (.ci/run)
# make oracle N=..   compares that many small grids, and one in 5,000 as many large ones, with the Rust (SEED=.. for other grids)
# make bench         times the library beside the Rust, counts its instructions and writes docs/BENCH.md; make bench-peers times VTK and scikit-image for it
.DELETE_ON_ERROR:
.PHONY: demo programs test checks examples bench bench-peers fuzz setup layout names evidence mutants unchanged header oracle archive listing planner workshop workshop-peers prove crate-table

CASES ?= 1000000
SEED ?= 1
HARNESS := build/oracle/release/harness

demo: programs
	demo/run

programs: build/bin/planner build/bin/workshop build/bin/grid

test: checks prove

checks: layout names unchanged header oracle archive listing planner workshop examples

setup:
	tools/setup cc c++ cargo python3

layout: setup
	tools/layout

# what docs/SAFETY.md names is there
names: setup
	tools/names

# the tables of docs/EVIDENCE.md, from the repository and what the prover said of its must-fail edits in the last `make prove`
evidence: setup
	tools/evidence

# mechanical edits of the code, each of which the prover must refuse: make mutants N=200
mutants: setup
	tools/mutants $(or $(N),20)

# the published files of the Rust are as they were published
unchanged: setup
	cd oracle/isosurface && sha256sum --quiet -c ../isosurface.sha256
	@echo "oracle: the files of isosurface 0.0.4 are unchanged"

# the header compiles alone, as C99 and as C++
header: setup
	cc -std=c99 -Wall -Wextra -Werror -pedantic -fsyntax-only -x c include/bridgeyarn.h
	c++ -Wall -Wextra -Werror -pedantic -fsyntax-only -x c++ include/bridgeyarn.h

# the library, call by call beside the unchanged Rust; a grid that differs is left in build/oracle as a sample record
oracle: $(HARNESS)
ifdef N
	$(HARNESS) grids $(N) $(SEED)
else
	$(HARNESS) compare $(CASES)
endif

# sample records from a coverage-guided fuzzer, for so many seconds: make fuzz SECONDS=600
fuzz: setup
	oracle/fuzz/run $(or $(SECONDS),30)

# the archive that users link, on requests and answers that the Rust side wrote
archive: build/archive/libbridgeyarn.a $(HARNESS)
	$(HARNESS) replay build/archive/requests 100000
	tools/x86-64-cc build/archive/replay oracle/archive/replay.c
	tools/x86-64-run build/archive/replay build/archive/requests

# the listing program, proved and compiled, on stored records, each of which the harness makes again
listing: build/listing/program $(HARNESS)
	rm -rf build/listing/made
	$(HARNESS) listings build/listing/made
	oracle/listing/run build/listing/program build/listing/made

# the planner: linked with the archive that users link and the kit's C library, built with this machine's compiler with the checks of addresses and undefined behaviour, and as
# `make programs` builds it, which the long tests take; the check of leaks traces the process, which not every machine allows
planner: programs build/planner/planner build/planner/grid build/planner/planner-checked build/native/faults.so
	tools/libc-check
	planner/test tools/x86-64-run build/planner/planner
	ASAN_OPTIONS=detect_leaks=0 planner/test build/planner/planner-checked
	planner/test build/bin/planner
	mesh_files/test planner long build/bin/planner
	planner/test-grid tools/x86-64-run build/planner/grid

# the workshop's program, linked, checked and tested as the planner is; readers of STL, OBJ and PLY files that are installed open what it writes
workshop: programs build/workshop/workshop build/workshop/workshop-checked build/native/faults.so
	workshop/test tools/x86-64-run build/workshop/workshop
	ASAN_OPTIONS=detect_leaks=0 workshop/test build/workshop/workshop-checked
	workshop/test build/bin/workshop
	mesh_files/test workshop long build/bin/workshop

# the README's program under the checks, and the README's commands as they are printed
examples: build/examples/first-checked programs
	ASAN_OPTIONS=detect_leaks=0 examples/test build/examples/first-checked

workshop-peers:
	apt-get install -y -qq python3-meshio admesh

# the table of crates in the README: the lines as they are, and the seconds that LOG has, if it is given
crate-table:
	tools/crate-table $(LOG)

# every crate, every must-fail edit, every program; nothing may come after it, since its last line is the prover's count
prove: setup
	tools/prove

# the library beside the Rust, in one process; peers that were timed before are listed with it
bench: build/bench/release/bench
	build/bench/release/bench run docs/BENCH.md build/bench/peers.md
	build/bench/release/instructions >build/bench/instructions.md
	cat build/bench/instructions.md
	(echo; cat build/bench/instructions.md) >>docs/BENCH.md

bench-peers: build/bench/release/bench
	bench/peers build/bench/release/bench build/bench

LISTING_SOURCES := $(shell find crates/listing crates/listing_words crates/listing_runs crates/listing_text -name out -prune -o \( -name '*.rt' -o -name '*.antt' \) -print)
SOURCES := $(filter-out $(LISTING_SOURCES),$(shell find crates -name out -prune -o \( -name '*.rt' -o -name '*.antt' \) -print))

build/archive/libbridgeyarn.a: $(SOURCES) tools/native-lib | setup
	@echo "proving bridgeyarn and what it rests on, and compiling it"
	tools/native-lib bridgeyarn $@

# the programs and the harness that this machine's own compilers build link the same archive
build/native/libbridgeyarn.a: build/archive/libbridgeyarn.a
	mkdir -p build/native
	cp build/archive/libbridgeyarn.a $@

$(HARNESS): build/native/libbridgeyarn.a $(shell find oracle -name '*.rs' -o -name '*.toml') | setup
	cd oracle/isosurface && RUSTFLAGS=-Awarnings CARGO_TARGET_DIR=$(CURDIR)/build/isosurface cargo build --release --offline --quiet
	cd oracle/harness && BRIDGEYARN_LIB=$(CURDIR)/build/native CARGO_TARGET_DIR=$(CURDIR)/build/oracle cargo build --release --offline --quiet
	touch $@

build/listing/program: $(SOURCES) $(LISTING_SOURCES) | setup
	@echo "proving the listing program and what it rests on, and compiling it"
	mkdir -p build/listing
	cd crates/listing && rt run <stdin >$(CURDIR)/build/listing/ran && cmp $(CURDIR)/build/listing/ran stdout
	cp crates/listing/out/listing $@

FILES := $(wildcard mesh_files/*.c)
PLANNER := planner/planner.c $(FILES)
WORKSHOP := $(wildcard workshop/*.c) $(FILES)
GRID := planner/grid.c mesh_files/messages.c
LIBC := $(wildcard tools/libc-x86-64/*.h tools/libc-x86-64/sys/*.h)
HEADERS := $(wildcard include/*.h mesh_files/*.h workshop/*.h)
WARNINGS := -std=c99 -Wall -Wextra -pedantic
# every machine rounds alike, and the square root is the processor's
ALIKE := -ffp-contract=off -fno-math-errno
NATIVE := cc -O2 $(WARNINGS) $(ALIKE) -Iinclude -Imesh_files
CHECKED := cc -g -O1 $(WARNINGS) -Werror $(ALIKE) -fsanitize=address,undefined -fno-sanitize-recover=all -Iinclude -Imesh_files

build/planner/grid: $(GRID) $(HEADERS) tools/x86-64-cc $(LIBC) build/archive/libbridgeyarn.a
	tools/x86-64-cc $@ $(GRID)

build/planner/planner: $(PLANNER) $(HEADERS) tools/x86-64-cc $(LIBC) build/archive/libbridgeyarn.a
	tools/x86-64-cc $@ $(PLANNER)

build/workshop/workshop: $(WORKSHOP) $(HEADERS) tools/x86-64-cc $(LIBC) build/archive/libbridgeyarn.a
	tools/x86-64-cc $@ $(WORKSHOP)

build/bin/grid: $(GRID) $(HEADERS) | setup
	mkdir -p build/bin
	$(NATIVE) $(GRID) -o $@

build/bin/planner: $(PLANNER) $(HEADERS) build/native/libbridgeyarn.a
	mkdir -p build/bin
	$(NATIVE) $(PLANNER) build/native/libbridgeyarn.a -lm -o $@

build/bin/workshop: $(WORKSHOP) $(HEADERS) build/native/libbridgeyarn.a
	mkdir -p build/bin
	$(NATIVE) $(WORKSHOP) build/native/libbridgeyarn.a -lm -o $@

build/planner/planner-checked: $(PLANNER) $(HEADERS) build/native/libbridgeyarn.a
	mkdir -p build/planner
	$(CHECKED) $(PLANNER) build/native/libbridgeyarn.a -lm -o $@

build/workshop/workshop-checked: $(WORKSHOP) $(HEADERS) build/native/libbridgeyarn.a
	mkdir -p build/workshop
	$(CHECKED) $(WORKSHOP) build/native/libbridgeyarn.a -lm -o $@

# a library that makes the system's calls fail, for the tests
build/native/faults.so: mesh_files/faults/faults.c | setup
	mkdir -p build/native
	cc -std=c99 -O1 -Wall -Wextra -fPIC -shared $< -o $@ -ldl

build/examples/first-checked: examples/first.c include/bridgeyarn.h build/native/libbridgeyarn.a
	mkdir -p build/examples
	$(CHECKED) $< build/native/libbridgeyarn.a -o $@

build/bench/release/bench: build/native/libbridgeyarn.a $(shell find bench oracle -name '*.rs' -o -name '*.toml') | setup
	cd bench && BRIDGEYARN_LIB=$(CURDIR)/build/native CARGO_TARGET_DIR=$(CURDIR)/build/bench cargo build --release --offline --quiet
	touch $@
