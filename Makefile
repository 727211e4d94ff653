# What others link: the archive, the header, a pkg-config file and the lister; and the tool for people.
#
#   make                         the archive, proved
#   make cli                     the tool: target/bin/swistopal
#   make tour                    all of it on a small store: demo, rebuild, query, check
#   make install PREFIX=/usr     header, archive, swistopal.pc, lister and tool
#   make example                 builds and runs examples/store.c
#   make compare COUNT=20000 SEED=1   the archive against the independent model
#   make texts                   the archive against Rust's library on every short text
#   make mutants                 the comparison against wrong models
#   make bench                   the archive's times against fast plain Rust; BENCH='--short' or '--only JOB'
#   make interface               header, example, installation and Rust bindings (tests/interface.sh)
#
# SWISTOPAL_LIB_DIR names another archive's directory, LISTER another lister: both must be there already.

VERSION = 0.4.0
PREFIX ?= /usr/local
DESTDIR ?=
CFLAGS ?= -O2
COUNT ?= 20000
SEED ?= 1
BENCH ?=

# Every processor of its kind runs the archive and the lister: by itself `rt` builds for x86-64-v2.
CPU = x86-64

built_lib_dir := $(CURDIR)/target/lib
built_lister := target/bin/lister
SWISTOPAL_LIB_DIR ?= $(built_lib_dir)
LISTER ?= $(built_lister)
export SWISTOPAL_LIB_DIR

archive := $(SWISTOPAL_LIB_DIR)/libswistopal.a
tool_sources := $(wildcard cli/Cargo.* cli/src/*.rs cli/src/*/*.rs bindings/rust/Cargo.* bindings/rust/*.rs bindings/rust/src/*.rs)
sources := crates.txt $(shell find crates -name out -prune -o \( -name '*.rt' -o -name '*.antt' \) -print)

.PHONY: all tour install example compare texts mutants bench interface cli
all: $(archive)

# Six objects, each proved: dispatch and queue reading; the query; append and record reading; the report of a stretch; the lister's text; the small
# functions, which tell what a record makes. Apart, they leave the compiler free to take what dispatch, the report and record reading judge a record
# with (the rules, the scan of its properties, the hash), and what a tag's code decodes with, into them.
exported := swistopal_c swistopal_index_c swistopal_log_c swistopal_stretch_c swistopal_listing_c swistopal_facts_c
$(built_lib_dir)/libswistopal.a: $(sources)
	for crate in $(exported); do (cd crates/$$crate && rt lib --cpu $(CPU)) || exit 1; done
	rm -rf $(@D) && mkdir -p $(@D)
	cd $(@D) && for crate in $(exported); do ar x $(CURDIR)/crates/$$crate/out/lib$$crate.a || exit 1; done && ar rcsD $(@F).part *.o && rm *.o && mv $(@F).part $(@F)

# `rt run` proves and builds, and runs once what it built.
$(built_lister): $(sources)
	cd crates/lister && rt run --cpu $(CPU) < stdin > /dev/null
	install -D -m 755 crates/lister/out/lister $@

# Phony: the prefix may be another one than last time.
.PHONY: target/swistopal.pc
target/swistopal.pc:
	mkdir -p target
	printf '%s\n' \
	    'prefix=$(PREFIX)' \
	    'libdir=$${prefix}/lib' \
	    'includedir=$${prefix}/include' \
	    '' \
	    'Name: swistopal' \
	    'Description: RocketMQ commit log, consume queues and index file on lent buffers' \
	    'Version: $(VERSION)' \
	    'Libs: -L$${libdir} -lswistopal' \
	    'Cflags: -I$${includedir}' > $@

cli: target/bin/swistopal

target/bin/swistopal: $(archive) $(tool_sources)
	cargo build --quiet --release --offline --manifest-path cli/Cargo.toml --target-dir target/cli
	install -D -m 755 target/cli/release/swistopal $@

install: $(archive) $(LISTER) target/bin/swistopal target/swistopal.pc
	install -d $(DESTDIR)$(PREFIX)/include $(DESTDIR)$(PREFIX)/lib/pkgconfig $(DESTDIR)$(PREFIX)/bin \
	    $(DESTDIR)$(PREFIX)/share/man/man1 $(DESTDIR)$(PREFIX)/share/bash-completion/completions
	install -m 644 include/swistopal.h $(DESTDIR)$(PREFIX)/include/swistopal.h
	install -m 644 $(archive) $(DESTDIR)$(PREFIX)/lib/libswistopal.a
	install -m 644 target/swistopal.pc $(DESTDIR)$(PREFIX)/lib/pkgconfig/swistopal.pc
	install -m 755 $(LISTER) $(DESTDIR)$(PREFIX)/bin/lister
	install -m 755 target/bin/swistopal $(DESTDIR)$(PREFIX)/bin/swistopal
	install -m 644 cli/swistopal.1 $(DESTDIR)$(PREFIX)/share/man/man1/swistopal.1
	install -m 644 cli/completion.bash $(DESTDIR)$(PREFIX)/share/bash-completion/completions/swistopal

target/example/store: examples/store.c include/swistopal.h $(archive)
	mkdir -p target/example
	$(CC) -std=c11 -Wall -Wextra -Werror $(CFLAGS) -Iinclude -o $@ examples/store.c $(archive)

example: target/example/store
	target/example/store

compare: $(archive)
	cargo run --quiet --release --offline --manifest-path reference/Cargo.toml -p compare -- --seed $(SEED) --count $(COUNT)

texts: $(archive)
	cargo run --quiet --release --offline --manifest-path reference/Cargo.toml -p compare -- --texts

mutants: $(archive)
	reference/mutants.py

bench: $(archive)
	cargo run --quiet --profile measured --offline --manifest-path reference/Cargo.toml -p bench -- $(BENCH)

interface: $(archive) $(LISTER)
	tests/interface.sh

# The demo store is made anew each time. What proving and building say is kept apart, for when they fail.
tour_log := target/tour.log
tour:
	@mkdir -p target
	@$(MAKE) --question --no-print-directory cli 2> /dev/null || echo 'proving and building first: some minutes' >&2
	@$(MAKE) --no-print-directory cli > $(tour_log) 2>&1 || { echo 'proving or building failed: see $(tour_log)' >&2; exit 1; }
	@rm -rf target/tour
	target/bin/swistopal demo target/tour
	target/bin/swistopal rebuild target/tour
	target/bin/swistopal query target/tour --topic SORTER_DIVERT --key P000017 --body
	target/bin/swistopal check target/tour
