# make: a first look. make test: the gate. make lib, make gatelog, make install: what people use.
# make differential, make peers, make hostile, make flipped: the library held against the outside. make bench: its speed.

.PHONY: first lib gatelog data differential peers hostile flipped bench test check fmt install uninstall clean

PREFIX = /usr/local
DESTDIR =
VERSION = 0.1.0
ARCHIVE = target/staticlib/libbarkmottle.a
TIMED = target/staticlib/libtimed.a
GATELOG = target/gatelog

# What all of them are made of. They are made one after the other, since rt works in a crate and those below it alone.
SOURCES = crates.txt $(shell find crates -name out -prune -o \( -name '*.rt' -o -name '*.antt' \) -print)
.NOTPARALLEL:

# Proves and builds the command, and lists a sample log before and after one bit of it is flipped.
first: gatelog
	@echo
	@echo "A healthy log: $(GATELOG) examples/key.txt examples/healthy.frame"
	@$(GATELOG) examples/key.txt examples/healthy.frame
	@echo
	@echo "The same log with one bit flipped: $(GATELOG) examples/key.txt examples/damaged.frame"
	@$(GATELOG) examples/key.txt examples/damaged.frame
	@echo
	@echo "The flipped bit made the block at place 6 unreadable and moved the event at place 7 by 4,096 seconds."

# Proves the command, and builds it. Rattle builds a program where it runs it, so it is asked for its usage.
gatelog: $(GATELOG)

$(GATELOG): $(SOURCES)
	@echo "proving what the command stands on, and then the command itself"
	cd crates/gatelog_command && rt run -- --help </dev/null >/dev/null
	mkdir -p $(@D)
	cp crates/gatelog_command/out/gatelog_command $@

# Proves and makes each call that the data says: published vectors, the Rust crate's answers, and document 01. rt builds
# a program where it runs it, which is not among the files of data: that first run is not looked at.
DATA = crates/check_data
data:
	rm -f $(DATA)/out/check_data
	cd $(DATA) && { rt run </dev/null >/dev/null || test -x out/check_data; }
	cd $(DATA)/data && ../out/check_data

# Proves what the C host calls, and writes it as an archive.
lib: $(ARCHIVE)
	@echo "the archive is $(ARCHIVE), its header include/barkmottle.h"

# An archive is of a thin crate of exports over the library, which stays one for other crates.
target/staticlib/lib%.a: $(SOURCES)
	cd crates/$*_c && rt lib
	mkdir -p $(@D)
	cp crates/$*_c/out/lib$*_c.a $@

# The library against the Rust crate, at full size: make differential [KEYS=N] [SEED=S] [SERPENT_SOURCE=FOLDER].
differential: export KEYS := $(or $(KEYS),500000)
differential: export SEED := $(or $(SEED),$(shell date +%s))
differential: lib
	tests/differential.sh $(ARCHIVE)

# The same against other libraries: make peers [KEYS=N] [SEED=S]. It installs those that are missing, where it may.
peers: export KEYS := $(or $(KEYS),100000)
peers: export SEED := $(or $(SEED),$(shell date +%s))
peers: lib
	tests/peers.sh $(ARCHIVE)

# Ten million calls with drawn input, and a million inputs of libFuzzer's: make hostile [CALLS=N] [RUNS=N] [SEED=S].
hostile: export CALLS := $(or $(CALLS),10000000)
hostile: export RUNS := $(or $(RUNS),1000000)
hostile: export SEED := $(or $(SEED),$(shell date +%s))
hostile: lib
	tests/hostile.sh $(ARCHIVE)

# How much these tests would notice: make flipped [FLIPS=N] [SEED=S] flips single bits of the library's machine code.
flipped: export FLIPS := $(or $(FLIPS),500)
flipped: export SEED := $(or $(SEED),$(shell date +%s))
flipped: lib
	tests/flipped.sh $(ARCHIVE)

# Speed beside the Rust crate and the other libraries that are installed: make bench [SAMPLES=N] [RUNS=N] [SERPENT_SOURCE=FOLDER].
bench: export SAMPLES := $(or $(SAMPLES),101)
bench: export RUNS := $(or $(RUNS),2)
bench: lib $(TIMED)
	bench/run.sh $(ARCHIVE) $(TIMED)

# The gate. rt ci proves everything, tries every wrong edit and runs every program; what it did earlier on the same
# files, on the same machine, it keeps. The tests from C come first: those of the library run beside the proof of the
# command, those of the command follow. No two calls of rt work at a time. rt's closing line, 'N passed, 0 failed', is
# the last line: nothing may follow it.
LIBRARY_TESTS = run exports differential hostile
test:
	$(MAKE) lib
	printf '%s\n' "make gatelog" $(LIBRARY_TESTS:%="tests/%.sh $(ARCHIVE)") | tests/beside.sh sh -c
	printf '%s\n' "tests/install.sh $(ARCHIVE)" "tests/command.sh $(GATELOG)" | tests/beside.sh sh -c
	tests/rt_ci.sh

# The proofs alone, with what is proved already kept: for work on the code.
check:
	rt all check

fmt:
	for crate in crates/*/; do (cd "$$crate" && rt fmt) || exit 1; done

# What is installed, and what uninstall removes: these five files.
to = $(DESTDIR)$(PREFIX)
install:
	@test -f "$(ARCHIVE)" || { echo "install: there is no $(ARCHIVE); run make lib first"; exit 1; }
	@test -f "$(GATELOG)" || { echo "install: there is no $(GATELOG); run make gatelog first"; exit 1; }
	install -d "$(to)/lib/pkgconfig" "$(to)/include" "$(to)/bin" "$(to)/share/man/man1"
	install -m 644 "$(ARCHIVE)" "$(to)/lib/libbarkmottle.a"
	install -m 644 include/barkmottle.h "$(to)/include/barkmottle.h"
	sed -e 's|@PREFIX@|$(PREFIX)|' -e 's|@VERSION@|$(VERSION)|' barkmottle.pc.in >"$(to)/lib/pkgconfig/barkmottle.pc"
	chmod 644 "$(to)/lib/pkgconfig/barkmottle.pc"
	install -m 755 "$(GATELOG)" "$(to)/bin/gatelog"
	install -m 644 man/gatelog.1 "$(to)/share/man/man1/gatelog.1"

uninstall:
	rm -f "$(to)/lib/libbarkmottle.a" "$(to)/include/barkmottle.h" "$(to)/lib/pkgconfig/barkmottle.pc" \
		"$(to)/bin/gatelog" "$(to)/share/man/man1/gatelog.1"

clean:
	rm -rf target crates/*/out
