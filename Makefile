# make run        prints the list of the worked example, by the program as `rt try` runs it, without its proofs, where no proved one is there
# make prove      proves every crate, runs every program, and leaves each in its crate's folder out
# make lib        proves crate combinator_c and writes build/libcombinator.a and the shared library
# make shared     the shared library alone, of the archive that is there
# make test       the gate
# make compare    the library against the Rust, on generated books (oracle/README.md): COUNT=24000 SEED=1
# make bench      times of the library and of the Rust, on the same books
# make scale      time against the size of a book
# make fuzz       damaged books, records and lengths: SECONDS=30 SEED=1
# make install    PREFIX=/usr/local DESTDIR= PROGRAM_PREFIX=combinator-
# make uninstall  with the same settings

VERSION = 0.1.0

PREFIX = /usr/local
BINDIR = $(PREFIX)/bin
LIBDIR = $(PREFIX)/lib
INCLUDEDIR = $(PREFIX)/include
MANDIR = $(PREFIX)/share/man
# Programs stand beside each other here, with links in BINDIR: `book` looks for `list` beside it.
PACKAGEDIR = $(LIBDIR)/combinator
# Goes before the names of programs and of their manual pages, as in combinator-list; empty leaves `list` and `book`.
PROGRAM_PREFIX = combinator-

SECONDS = 30
COUNT = 24000
SEED = 1

# The archive that the tests link; build/libmodel.a, the model in its place, tries the tests themselves.
LIB ?= build/libcombinator.a
export LIB

CFLAGS = -O2 -g
STRICT = -std=c99 -D_GNU_SOURCE -Wall -Wextra -Wpedantic -Werror -Iinclude
SANITIZE = -fsanitize=address,undefined -fno-sanitize-recover=all
DRIVER = main batch replay fuzz fuzz_wire bench scale stack build common model

LIST = crates/list/out/list
PROGRAMS = $(LIST) $(wildcard tools/book)
MODULES = $(wildcard tools/booktext/*.py)
PAGES = $(wildcard man/*.[1-8])
HEADERS = $(wildcard include/*.h)
# The module by which `book` calls the library: beside it.
PYTHON = $(wildcard bindings/python/combinator.py)

.PHONY: lib shared run prove test compare bench scale fuzz install uninstall clean FORCE
.SECONDARY:

# For every processor of x86-64: the kit's own choice needs instructions that the oldest lack, and an archive does not look.
CPU = --cpu=x86-64
# With OVER=ci what is below the crate is not proved again, but taken as a run of `rt ci` has just left it.
lib:
	@$(if $(filter ci,$(OVER)),tools/archive,tools/progress rt lib combinator_c) $(CPU)
	@mkdir -p build
	@tools/align crates/combinator_c/out/libcombinator_c.a build/libcombinator.a
	@$(MAKE) -s shared

# The whole archive, with the header's functions for others to link; without the compiler's start files, which have writable data.
# Its other names are no symbolic links: `rt ci` refuses those anywhere in a checkout.
MAJOR = $(firstword $(subst ., ,$(VERSION)))
SONAME = libcombinator.so.$(MAJOR)
SHARED = libcombinator.so.$(VERSION)
shared: build/$(SHARED)
build/$(SHARED): build/libcombinator.a include/combinator.h tools/exports Makefile
	tools/exports --map > build/exports.map
	$(CC) -shared -nostartfiles -Wl,-soname,$(SONAME) -Wl,--version-script=build/exports.map -Wl,-z,defs,-z,now,-z,relro,-z,text,-z,noexecstack \
	    -Wl,--whole-archive $< -Wl,--no-whole-archive -o $@
	ln -f $@ build/$(SONAME)
	ln -f $@ build/libcombinator.so

# Only where they are missing; `make lib` and `make prove` build them anew.
build/libcombinator.a:
	$(MAKE) lib
$(LIST):
	@tools/progress rt run list

# The proved program; or `rt try`, which runs it without its proofs in some seconds, as is said each time.
# Source 0001ff0000000111, destination 0001ff0000000110, book.
run:
	@mkdir -p build/log
	@{ printf '\000\001\377\000\000\000\001\021\000\001\377\000\000\000\001\020'; cat examples/worked.book; } | \
	if [ -x $(LIST) ]; then $(LIST); else \
	    echo 'make run: the program is run without its proofs; "make prove" proves and builds it' >&2; \
	    log=$$PWD/build/log/try.log; cd crates/list && rt try 2> "$$log" || { cat "$$log" >&2; exit 1; }; fi

prove:
	@tools/progress rt all test

test:
	bash .ci/run

compare:
	tests/compare $(SEED) $(COUNT)

bench:
	tests/bench

scale: build/driver
	build/driver scale

fuzz:
	tests/fuzz $(SEED) $(SECONDS)

# The driver is linked anew each time, since LIB may name another archive; at once, since a test beside may be running it.
build/driver: $(DRIVER:%=build/plain/%.o) $(LIB) FORCE
	$(CC) $(filter %.o,$^) $(LIB) -lpthread -o $@.$$$$ && mv $@.$$$$ $@
build/driver-sanitized: $(DRIVER:%=build/sanitized/%.o) $(LIB) FORCE
	$(CC) $(SANITIZE) $(filter %.o,$^) $(LIB) -lpthread -o $@.$$$$ && mv $@.$$$$ $@
build/plain/%.o: tests/driver/%.c $(wildcard tests/driver/*.h) include/combinator.h
	@mkdir -p $(@D)
	$(CC) $(CFLAGS) $(STRICT) -c $< -o $@
build/sanitized/%.o: tests/driver/%.c $(wildcard tests/driver/*.h) include/combinator.h
	@mkdir -p $(@D)
	$(CC) $(CFLAGS) $(STRICT) $(SANITIZE) -c $< -o $@
build/libmodel.a: $(patsubst %,build/plain/model_%.o,list routes assemble write read)
	ar rcs $@ $^
FORCE:

# A page's section is the last part of its name. A function has a page that leads to the library's.
page_to = $(DESTDIR)$(MANDIR)/man$(subst .,,$(suffix $(1)))/$(if $(filter .1,$(suffix $(1))),$(PROGRAM_PREFIX))$(notdir $(1))
FUNCTION_PAGES = $(patsubst %,%.3,$(shell tools/exports --names))

# The files by which others find the library name no folder but from their own, LIBDIR/NAME: what was installed can be moved.
relative = $(shell realpath -ms --relative-to=$(1) $(2))
FILLED = sed -e 's|@TO_PREFIX@|$(call relative,$(LIBDIR)/pkgconfig,$(PREFIX))|' -e 's|@LIBDIR@|$(call relative,$(PREFIX),$(LIBDIR))|' \
    -e 's|@INCLUDEDIR@|$(call relative,$(PREFIX),$(INCLUDEDIR))|' -e 's|@VERSION@|$(VERSION)|' -e 's|@MAJOR@|$(MAJOR)|' \
    -e 's|@SONAME@|$(SONAME)|' -e 's|@SHARED@|$(SHARED)|'
FOUND_BY = pkgconfig/combinator.pc cmake/combinator/combinator-config.cmake cmake/combinator/combinator-config-version.cmake

install: build/libcombinator.a build/$(SHARED) $(filter $(LIST),$(PROGRAMS))
	install -d $(DESTDIR)$(LIBDIR) $(DESTDIR)$(INCLUDEDIR) $(DESTDIR)$(PACKAGEDIR) $(DESTDIR)$(BINDIR)
	install -m 644 build/libcombinator.a $(DESTDIR)$(LIBDIR)/libcombinator.a
	install -m 755 build/$(SHARED) $(DESTDIR)$(LIBDIR)/$(SHARED)
	ln -sf $(SHARED) $(DESTDIR)$(LIBDIR)/$(SONAME)
	ln -sf $(SONAME) $(DESTDIR)$(LIBDIR)/libcombinator.so
	install -m 644 $(HEADERS) $(DESTDIR)$(INCLUDEDIR)
	$(foreach f,$(FOUND_BY),install -d $(DESTDIR)$(LIBDIR)/$(dir $(f)) && $(FILLED) include/$(notdir $(f)).in > $(DESTDIR)$(LIBDIR)/$(f) && \
	    chmod 644 $(DESTDIR)$(LIBDIR)/$(f) &&) :
	$(foreach p,$(PROGRAMS),install -m 755 $(p) $(DESTDIR)$(PACKAGEDIR)/$(notdir $(p)) && \
	    ln -sfr $(DESTDIR)$(PACKAGEDIR)/$(notdir $(p)) $(DESTDIR)$(BINDIR)/$(PROGRAM_PREFIX)$(notdir $(p)) &&) :
	$(if $(MODULES),install -d $(DESTDIR)$(PACKAGEDIR)/booktext && install -m 644 $(MODULES) $(DESTDIR)$(PACKAGEDIR)/booktext)
	$(if $(PYTHON),install -m 644 $(PYTHON) $(DESTDIR)$(PACKAGEDIR))
	$(foreach p,$(PAGES),install -d $(dir $(call page_to,$(p))) && tools/page '$(PROGRAM_PREFIX)' $(p) > $(call page_to,$(p)) && \
	    chmod 644 $(call page_to,$(p)) &&) :
	$(foreach p,$(FUNCTION_PAGES),echo '.so man3/combinator.3' > $(call page_to,$(p)) && chmod 644 $(call page_to,$(p)) &&) :

uninstall:
	rm -f $(foreach f,libcombinator.a libcombinator.so $(SONAME) $(SHARED) $(FOUND_BY),$(DESTDIR)$(LIBDIR)/$(f))
	rm -f $(foreach h,$(HEADERS),$(DESTDIR)$(INCLUDEDIR)/$(notdir $(h)))
	rm -f $(foreach p,$(PROGRAMS),$(DESTDIR)$(BINDIR)/$(PROGRAM_PREFIX)$(notdir $(p))) $(foreach p,$(PAGES) $(FUNCTION_PAGES),$(call page_to,$(p)))
	rm -f $(foreach p,$(PROGRAMS) $(PYTHON),$(DESTDIR)$(PACKAGEDIR)/$(notdir $(p)))
	rm -rf $(DESTDIR)$(PACKAGEDIR)/booktext $(DESTDIR)$(PACKAGEDIR)/__pycache__
	rmdir $(DESTDIR)$(PACKAGEDIR) $(DESTDIR)$(LIBDIR)/cmake/combinator

clean:
	rm -rf build
