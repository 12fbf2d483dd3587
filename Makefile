# make              the command, target/puigneht, over the proved libraries, and the shared library
# make run          also a sample album (a chord of 5 seconds), converted, and its level sheet
# make check        everything proved, the edits, the programs, and what is compiled over the libraries (.ci/run)
# make test         what is compiled over the libraries, without proving anew: minutes
# make library, examples, faults, rust, python, pictures    its parts (faults: as a user would, with each call failing)
# make large        the command with an album of two hours and a full disk (command/large)
# make install      command, libraries, headers, programs that draw, pkg-config file, man pages, completion
# make uninstall    takes them away again
# make clean        what make built, but for the proofs
# It needs the Rattle kit and a C compiler; test and check also a C++ compiler, cargo and Python.
VERSION := $(shell sed -n 's/^\#define PUIGNEHT_VERSION "\(.*\)"$$/\1/p' include/puigneht.h)
# Before 1.0 a minor version may change what is linked against.
ABI := $(shell echo $(VERSION) | sed 's/^\(0\.[0-9]*\)\..*/\1/; t; s/\..*//')

# From outside: the compiler and its flags, and where things go.
CC = cc
CFLAGS = -O2
CPPFLAGS =
LDFLAGS =
LDLIBS =
WERROR =
INSTALL = install
DESTDIR =
PREFIX = /usr/local
BINDIR = $(PREFIX)/bin
LIBDIR = $(PREFIX)/lib
INCLUDEDIR = $(PREFIX)/include
MANDIR = $(PREFIX)/share/man
DATADIR = $(PREFIX)/share/puigneht
DOCDIR = $(PREFIX)/share/doc/puigneht
COMPLETIONS = $(PREFIX)/share/bash-completion/completions

OWN_CFLAGS = -std=c17 -Wall -Wextra $(WERROR)
OWN_CPPFLAGS = -Iinclude -Icommand
COMPILE = $(CC) $(OWN_CFLAGS) $(CFLAGS) $(OWN_CPPFLAGS) $(CPPFLAGS)

LIBRARIES = target/staticlib/libpuigneht_album.a target/staticlib/libpuigneht.a
SHARED = target/libpuigneht.so.$(VERSION)
HEADERS = include/puigneht.h include/puigneht/album.h
SOURCES = crates.txt $(shell find crates -type f -not -path '*/must-fail/*' -not -path '*/data/*' -not -path '*/out/*')

# The command: its arguments and text, what it does, reads and writes.
COMMAND = $(addprefix command/,main.c args.c help.c ends.c terminal.c signals.c bytes.c names.c input.c taps.c places.c \
    made.c outputs.c album.c compared.c jobs.c told.c convert.c each.c wavfile.c verify.c check.c turns.c gains.c \
    single.c levels.c json.c info.c frames.c dsf.c)

all: target/puigneht $(SHARED)

target/puigneht: $(COMMAND) $(wildcard command/*.h) $(HEADERS) $(LIBRARIES)
	$(COMPILE) $(COMMAND) $(LIBRARIES) $(LDFLAGS) $(LDLIBS) -o $@

# The libraries are made anew only where a source has changed.
target/staticlib/libpuigneht_album.a: $(SOURCES)
	tools/staticlib puigneht_album
	touch $@

target/staticlib/libpuigneht.a: $(SOURCES) library/describe.c include/puigneht.h
	CC='$(CC)' CFLAGS='$(CFLAGS)' CPPFLAGS='$(CPPFLAGS)' WERROR='$(WERROR)' tools/staticlib puigneht
	touch $@

# Both in one; it hands out what the headers declare and nothing else.
$(SHARED): $(LIBRARIES) $(HEADERS) library/exports Makefile
	library/exports $(LIBRARIES) > target/exports
	$(CC) $(CFLAGS) -shared -Wl,-soname,libpuigneht.so.$(ABI) -Wl,--version-script,target/exports -Wl,-z,defs \
	    -Wl,--whole-archive $(LIBRARIES) -Wl,--no-whole-archive $(LDFLAGS) -o $@

target/chord: tools/chord.c
	mkdir -p target
	$(COMPILE) tools/chord.c $(LDFLAGS) -o $@ -lm

target/cut: tools/cut.c $(HEADERS) target/staticlib/libpuigneht.a
	$(COMPILE) tools/cut.c target/staticlib/libpuigneht.a $(LDFLAGS) -o $@

target/rack: examples/rack.c $(HEADERS) $(LIBRARIES)
	$(COMPILE) examples/rack.c $(LIBRARIES) $(LDFLAGS) -o $@ -lpthread

target/chord.dsf: target/chord
	target/chord 5 $@

run: target/puigneht target/chord.dsf
	target/puigneht -f -s - target/chord.dsf target/chord.wav
	@echo "target/chord.wav is made: 5 seconds, 88,200 Hz, 24 bits, stereo. Its sheet: channel, clips, lowest and highest sample."

check:
	.ci/run

# What is compiled over the proved calls, without proving anew.
test: faults library examples rust python pictures installed
	@echo "test: passed; make check proves everything anew"

library: target/puigneht
	library/tests/run
	library/tests/readme

examples: target/puigneht
	examples/faults

rust: target/puigneht
	cd bindings/rust && cargo test --offline

python: all
	bindings/python/tests/run

faults: target/puigneht
	command/faults target/puigneht
	command/stored.py target/puigneht
	command/tracks.py target/puigneht
	command/figures.py target/puigneht
	command/watched.py target/puigneht
	command/failures target/puigneht

pictures:
	tools/tests/pictures

installed: all
	library/tests/installed

large: target/puigneht
	command/large target/puigneht

# What is installed, a folder and its files.
PROGRAMS = puigneht puigneht-levels puigneht-response
MANUALS = puigneht.1 puigneht-levels.1 puigneht-response.1
DOCUMENTS = README.md NOTICE docs/FILTERS.md
PICTURES = $(notdir $(wildcard tools/pictures/*.py))
LINKS = libpuigneht.so.$(ABI) libpuigneht.so
# a folder as a pkg-config file tells it, so that PREFIX stands in one line
under = $(patsubst $(PREFIX)/%,$${prefix}/%,$(1))

install: all
	$(INSTALL) -d $(addprefix $(DESTDIR),$(BINDIR) $(LIBDIR)/pkgconfig $(INCLUDEDIR)/puigneht $(MANDIR)/man1 \
	    $(DATADIR)/pictures $(DOCDIR)/pictures $(COMPLETIONS))
	$(INSTALL) -m 755 target/puigneht $(DESTDIR)$(BINDIR)/puigneht
	$(INSTALL) -m 755 tools/plot-levels $(DESTDIR)$(BINDIR)/puigneht-levels
	$(INSTALL) -m 755 tools/plot-response $(DESTDIR)$(BINDIR)/puigneht-response
	$(INSTALL) -m 644 $(LIBRARIES) $(DESTDIR)$(LIBDIR)
	$(INSTALL) -m 755 $(SHARED) $(DESTDIR)$(LIBDIR)
	for link in $(LINKS); do ln -sf libpuigneht.so.$(VERSION) $(DESTDIR)$(LIBDIR)/$$link; done
	$(INSTALL) -m 644 include/puigneht.h $(DESTDIR)$(INCLUDEDIR)/puigneht.h
	$(INSTALL) -m 644 include/puigneht/album.h $(DESTDIR)$(INCLUDEDIR)/puigneht/album.h
	$(INSTALL) -m 644 command/puigneht.1 tools/puigneht-levels.1 tools/puigneht-response.1 $(DESTDIR)$(MANDIR)/man1
	$(INSTALL) -m 644 $(addprefix tools/pictures/,$(PICTURES)) $(DESTDIR)$(DATADIR)/pictures
	$(INSTALL) -m 644 crates/reference/specs/Taps.antt $(DESTDIR)$(DATADIR)/Taps.antt
	$(INSTALL) -m 644 $(DOCUMENTS) $(DESTDIR)$(DOCDIR)
	$(INSTALL) -m 644 docs/pictures/response.svg $(DESTDIR)$(DOCDIR)/pictures
	$(INSTALL) -m 644 command/completion.bash $(DESTDIR)$(COMPLETIONS)/puigneht
	printf '%s\n' 'prefix=$(PREFIX)' 'libdir=$(call under,$(LIBDIR))' \
	    'includedir=$(call under,$(INCLUDEDIR))' '' 'Name: puigneht' \
	    'Description: One-bit audio (DSD64) to 24-bit PCM, proved' 'Version: $(VERSION)' \
	    'Libs: -L$${libdir} -lpuigneht' 'Libs.private: -lpuigneht_album -lpuigneht' 'Cflags: -I$${includedir}' \
	    > $(DESTDIR)$(LIBDIR)/pkgconfig/puigneht.pc

uninstall:
	cd $(DESTDIR)$(BINDIR) && rm -f $(PROGRAMS)
	cd $(DESTDIR)$(LIBDIR) && rm -f $(notdir $(LIBRARIES)) libpuigneht.so.$(VERSION) $(LINKS) pkgconfig/puigneht.pc
	cd $(DESTDIR)$(INCLUDEDIR) && rm -f puigneht.h puigneht/album.h
	cd $(DESTDIR)$(MANDIR)/man1 && rm -f $(MANUALS)
	cd $(DESTDIR)$(DATADIR) && rm -f $(addprefix pictures/,$(PICTURES)) Taps.antt
	cd $(DESTDIR)$(DOCDIR) && rm -f $(notdir $(DOCUMENTS)) pictures/response.svg
	rm -f $(DESTDIR)$(COMPLETIONS)/puigneht
	-rmdir $(addprefix $(DESTDIR),$(INCLUDEDIR)/puigneht $(DATADIR)/pictures $(DATADIR) $(DOCDIR)/pictures $(DOCDIR))

clean:
	rm -f target/puigneht target/chord target/cut target/rack target/chord.dsf target/chord.wav target/exports target/libpuigneht.so.*

.PHONY: all run check test library examples rust python faults pictures installed large install uninstall clean
.DELETE_ON_ERROR:
.NOTPARALLEL:
