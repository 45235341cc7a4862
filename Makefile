# Build the library and the two programs, job and trial, check everything, and install them.
PREFIX ?= /usr/local
VERSION := 5.1.0

.PHONY: all library programs check uninstall install

# `rt run` proves and builds a program, and then runs it: job on nothing, trial for a job of one edge.
all: library
	cd crates/job && rt run </dev/null >/dev/null
	cd crates/trial && rt run -- 0 1 >/dev/null
	$(MAKE) --no-print-directory programs

# `rt` leaves what it builds in the out/ of its crate; these put it where the documents say that it is.
library:
	cd crates/planner && rt lib
	install -D -m 644 crates/planner/out/libplanner.a target/staticlib/libplanner.a

programs:
	install -D -m 755 crates/job/out/job target/bin/job
	install -D -m 755 crates/trial/out/trial target/bin/trial

# The gate.
check:
	.ci/run

# Takes away every file that `make install` put there. The folders stay: others may use them.
uninstall:
	rm -f $(DESTDIR)$(PREFIX)/bin/planner-job $(DESTDIR)$(PREFIX)/bin/planner-trial $(DESTDIR)$(PREFIX)/lib/libplanner.a
	rm -f $(DESTDIR)$(PREFIX)/include/planner.h $(DESTDIR)$(PREFIX)/lib/pkgconfig/planner.pc

# Installs what `make all` built: the programs, the archive, the header, and a file for pkg-config.
install:
	install -d $(DESTDIR)$(PREFIX)/bin $(DESTDIR)$(PREFIX)/lib/pkgconfig $(DESTDIR)$(PREFIX)/include
	install -m 755 target/bin/job $(DESTDIR)$(PREFIX)/bin/planner-job
	install -m 755 target/bin/trial $(DESTDIR)$(PREFIX)/bin/planner-trial
	install -m 644 target/staticlib/libplanner.a $(DESTDIR)$(PREFIX)/lib/libplanner.a
	install -m 644 include/planner.h $(DESTDIR)$(PREFIX)/include/planner.h
	sed -e 's|@PREFIX@|$(PREFIX)|' -e 's|@VERSION@|$(VERSION)|' planner.pc.in > $(DESTDIR)$(PREFIX)/lib/pkgconfig/planner.pc

# Draws the pictures of the documents.
.PHONY: figures
figures:
	@CARGO_TARGET_DIR=target/cargo cargo run --quiet --offline --locked --release --manifest-path figures/Cargo.toml -- docs/figures
