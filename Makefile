# make                        target/staticlib/libgrommetide.a, proved, for x86-64; nothing is proved again while no source is newer
# make TARGET=TRIPLE          target/TRIPLE/libgrommetide.a from the same proved module, for any little-endian target of the kit's
#                             clang; words for clang in TARGET_FLAGS; for wasm32 also grommetide.wasm. TESTED below lists those that the
#                             gate runs
# make demo                   the store on three tickets, from the command line
# make install PREFIX=/usr    header, archive and pkg-config file, of TARGET if one is named; DESTDIR is put before each path
# make figures                measures the library and puts the tables into docs/BENCHMARKS.md; nothing else should run
# After a change of the kit: make -B

PREFIX = /usr/local
DESTDIR =
INSTALL = install
TARGET =
TARGET_FLAGS = $(FLAGS_$(TARGET))

# The targets that are tested, and the words that two of them are tested with.
TESTED = thumbv6m-none-eabi thumbv7m-none-eabi thumbv7em-none-eabi riscv32-none-elf riscv64-none-elf aarch64-none-elf wasm32
FLAGS_riscv32-none-elf = -march=rv32imc -mabi=ilp32
FLAGS_riscv64-none-elf = -march=rv64imac -mabi=lp64

HEADER = include/grommetide.h
OWN = target/staticlib/libgrommetide.a
MODULE = target/module/grommetide.bc
LOG = target/staticlib.log
LIBRARY = $(if $(TARGET),target/$(TARGET)/libgrommetide.a,$(OWN))
WASM = $(dir $(LIBRARY))grommetide.wasm

SOURCES := crates.txt $(shell find crates \( -name must-fail -o -name out \) -prune -o -type f -print)

# 0.11.0, from the header
number = $(shell sed -n 's/^\#define GROMMETIDE_VERSION_$(1) *//p' $(HEADER))
VERSION = $(call number,MAJOR).$(call number,MINOR).$(call number,PATCH)

PROVING = Proving the library; from nothing this takes many minutes ($(LOG)).

all: $(LIBRARY)

# It makes $(OWN) too, in the same run.
$(MODULE): $(SOURCES) scripts/keep-module
	@mkdir -p target
	@echo "$(PROVING)" >&2
	@scripts/keep-module $@ > $(LOG) 2>&1 || { tail -n 30 $(LOG) >&2; exit 1; }
	@touch $@

$(OWN): $(MODULE)
	@touch $@

# Made anew each time, in a second: the words may be others.
ifneq ($(TARGET),)
$(LIBRARY): $(MODULE) force
	@scripts/cross $(MODULE) $(TARGET) target/$(TARGET) $(TARGET_FLAGS)
endif

tested: $(MODULE)
	@$(foreach target,$(TESTED),scripts/cross $(MODULE) $(target) target/$(target) $(FLAGS_$(target)) &&) true

demo: $(OWN)
	@cd host && cargo run --quiet --release --offline -p desk -- demo

install: $(LIBRARY)
	$(INSTALL) -d $(DESTDIR)$(PREFIX)/include $(DESTDIR)$(PREFIX)/lib/pkgconfig
	$(INSTALL) -m 644 $(HEADER) $(DESTDIR)$(PREFIX)/include/grommetide.h
	$(INSTALL) -m 644 $(LIBRARY) $(DESTDIR)$(PREFIX)/lib/libgrommetide.a
	[ ! -f $(WASM) ] || $(INSTALL) -m 644 $(WASM) $(DESTDIR)$(PREFIX)/lib
	sed -e 's|@PREFIX@|$(PREFIX)|' -e 's|@VERSION@|$(VERSION)|' grommetide.pc.in > $(DESTDIR)$(PREFIX)/lib/pkgconfig/grommetide.pc

figures: $(OWN)
	cd host && cargo run --quiet --release --offline -p bench > ../target/figures.md
	awk '/^<!-- figures end/ { skip = 0 } !skip { print } /^<!-- figures begin/ { skip = 1; while ((getline line < "target/figures.md") > 0) print line }' \
	    docs/BENCHMARKS.md > target/BENCHMARKS.md
	mv target/BENCHMARKS.md docs/BENCHMARKS.md

.PHONY: all demo install figures tested force
