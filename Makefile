# `make` alone answers the first job.
.DEFAULT_GOAL = example
.PHONY: example test toolchain lib job find outside bench install uninstall
# One rt at a time: they share the crates below.
.NOTPARALLEL:

# The whole gate; its last line is 'N passed, M failed'.
test:
	@tests/gate

toolchain:
	@command -v rt >/dev/null || { echo 'rt is missing: it is not on PATH' >&2; exit 2; }

# A program is proved, built and run once on an empty input, and then stands below target/bin/.
program-%: toolchain
	cd crates/$* && rt run --cpu x86-64 -- 0 </dev/null 2>&1 >/dev/null
	install -D crates/$*/out/$* target/bin/$*

# An archive for C is proved and built, and then stands below target/staticlib/.
archive-%: toolchain
	cd crates/$* && rt lib --cpu x86-64
	install -D -m 644 crates/$*/out/lib$*.a target/staticlib/lib$*.a

# The library for C, below target/staticlib/: libshelf.a, and the shared library for each level of x86-64. include/shelf.h is
# its header.
lib: archive-shelf
	levels/build

# The job program, target/bin/shelf_job.
job: program-shelf_job

# The program that finds a disk's slot, target/bin/roster_find.
find: program-roster_find

# What the tests from outside run.
outside: job find program-field_calc program-judge_run archive-roster_calls

# A first job: two lost data disks come back from P and Q.
example: job
	@printf 'SRJ\0\1\2\0\2\0\1\0\0\0\1\0\0\201\34' | target/bin/shelf_job | od -An -tx1

# How fast the library is, beside a plain encoder in Rust and, where they are installed, ISA-L and Linux's sources. It installs
# nothing. The field's product and the roster aren't among what C calls, so the bench has libraries of them,
# target/staticlib/libbench_product.a and libroster_calls.a.
bench: lib archive-bench_product archive-roster_calls
	@command -v cargo >/dev/null || { echo 'cargo is missing: it is not on PATH' >&2; exit 2; }
	bench/linux
	cd bench && cargo run --quiet --release --offline --locked

# The header says the version. DESTDIR, if given, stands before PREFIX and LIBDIR for a staged copy, and no file mentions it.
# LIBDIR has the libraries; the dynamic loader looks below its glibc-hwcaps/ for the processor's level first.
VERSION := $(shell sed -n 's/^.define SHELF_VERSION "\(.*\)"$$/\1/p' include/shelf.h)
SONAME := libshelf.so.$(firstword $(subst ., ,$(VERSION)))
SHARED := libshelf.so.$(VERSION)
LEVELS := . glibc-hwcaps/x86-64-v3 glibc-hwcaps/x86-64-v4
PREFIX = /usr/local
LIBDIR = $(PREFIX)/lib
bindir = $(DESTDIR)$(PREFIX)/bin
libdir = $(DESTDIR)$(LIBDIR)
includedir = $(DESTDIR)$(PREFIX)/include

# The loader's cache, where it may be written. A staged copy is no part of it.
define cache
	@[ -n '$(DESTDIR)' ] || PATH="$$PATH:/sbin" ldconfig 2>/dev/null || true
endef

install: lib job find
	install -d '$(bindir)' '$(libdir)/pkgconfig' '$(includedir)'
	install -m 755 target/bin/shelf_job target/bin/roster_find '$(bindir)'
	install -m 644 target/staticlib/libshelf.a '$(libdir)'
	for level in $(LEVELS); do \
	    install -d '$(libdir)'/$$level && install -m 644 target/staticlib/$$level/$(SONAME) '$(libdir)'/$$level/$(SHARED) && \
	    ln -sf $(SHARED) '$(libdir)'/$$level/$(SONAME) || exit 1; done
	ln -sf $(SONAME) '$(libdir)/libshelf.so'
	install -m 644 include/shelf.h '$(includedir)'
	printf '%s\n' 'prefix=$(PREFIX)' 'libdir=$(subst $(PREFIX),$${prefix},$(LIBDIR))' 'includedir=$${prefix}/include' '' 'Name: shelf' \
	    'Description: RAID-6 stripes: encode, small writes, check, repair, rebuild' 'Version: $(VERSION)' \
	    'Cflags: -I"$${includedir}"' 'Libs: -L"$${libdir}" -lshelf' >'$(libdir)/pkgconfig/shelf.pc'
	chmod 644 '$(libdir)/pkgconfig/shelf.pc'
	$(cache)

# Folders stay: others may use them.
uninstall:
	rm -f '$(bindir)/shelf_job' '$(bindir)/roster_find' '$(libdir)/libshelf.a' '$(libdir)/libshelf.so' '$(libdir)/pkgconfig/shelf.pc' '$(includedir)/shelf.h'
	for level in $(LEVELS); do rm -f '$(libdir)'/$$level/$(SONAME) '$(libdir)'/$$level/$(SHARED); done
	$(cache)
