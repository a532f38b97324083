# Installs the library, its header, the programs and their pages.
#
#     make install PREFIX=/usr/local        also DESTDIR=.., LIBDIR=..
#     make uninstall PREFIX=/usr/local
#
# What is missing or older than its sources is built before: the library and the program by `rt` of the Rattle kit, which proves
# them and takes some minutes, and `board` by cargo. `make` alone builds.

PREFIX ?= /usr/local
LIBDIR ?= $(PREFIX)/lib
CARGO ?= cargo
RT ?= rt

# A blank would tear a path apart, and `uninstall` would remove something else.
ifneq ($(words $(PREFIX)) $(words $(LIBDIR)) $(words x$(DESTDIR)),1 1 1)
$(error PREFIX, LIBDIR and DESTDIR have to be paths without blanks)
endif
override PREFIX := $(abspath $(PREFIX))
override LIBDIR := $(abspath $(LIBDIR))

# The one place of the version is rust/Cargo.toml; `board --version` says the same.
VERSION := $(shell sed -n 's/^version = "\(.*\)"$$/\1/p' rust/Cargo.toml)
SONAME := libbasmuthar.so.$(firstword $(subst ., ,$(VERSION)))

LIBRARY := target/staticlib/libbasmuthar.a
SHARED := target/staticlib/libbasmuthar.so.$(VERSION)
PROGRAM := target/bin/dimacs
BOARD := $(if $(CARGO_TARGET_DIR),$(CARGO_TARGET_DIR),rust/target)/release/board
SOURCES := $(shell find crates crates.txt -name out -prune -o -type f -print)

PAGES := README.md docs/BOARDS.md docs/KEEPERS.md docs/LIMITS.md docs/RECORD.md
EXAMPLES := $(wildcard examples/*)

# Where each kind of file goes.
BIN := $(DESTDIR)$(PREFIX)/bin
LIB := $(DESTDIR)$(LIBDIR)
INCLUDE := $(DESTDIR)$(PREFIX)/include
LIBEXEC := $(DESTDIR)$(PREFIX)/libexec/basmuthar
MAN := $(DESTDIR)$(PREFIX)/share/man/man1
DOC := $(DESTDIR)$(PREFIX)/share/doc/basmuthar

# What stands between two @ in the pages and in basmuthar.pc.in.
FILL = sed -e 's|@PREFIX@|$(PREFIX)|; s|@LIBDIR@|$(LIBDIR)|; s|@VERSION@|$(VERSION)|'

.PHONY: all install uninstall board
all: $(LIBRARY) $(SHARED) $(PROGRAM) board

$(LIBRARY): $(SOURCES)
	RT='$(RT)' tools/build.sh library

$(PROGRAM): $(SOURCES)
	RT='$(RT)' tools/build.sh program

# Nothing but the nine functions is seen from outside, and nothing has to be moved when it is loaded.
$(SHARED): $(LIBRARY) Makefile rust/Cargo.toml
	$(CC) -shared -o $@ -Wl,-soname,$(SONAME) -Wl,-z,defs -Wl,-z,text -Wl,-z,relro -Wl,-z,now \
	    -Wl,--whole-archive $(LIBRARY) -Wl,--no-whole-archive

# cargo knows by itself what is up to date.
board: $(LIBRARY)
	$(CARGO) build --quiet --release --manifest-path rust/Cargo.toml --bin board

install: all
	install -d $(BIN) $(LIB)/pkgconfig $(INCLUDE) $(LIBEXEC) $(MAN) $(DOC)/examples
	install -m 644 $(LIBRARY) $(LIB)
	install -m 755 $(SHARED) $(LIB)
	ln -sf libbasmuthar.so.$(VERSION) $(LIB)/$(SONAME)
	ln -sf $(SONAME) $(LIB)/libbasmuthar.so
	install -m 644 include/basmuthar.h $(INCLUDE)
	$(FILL) basmuthar.pc.in >$(LIB)/pkgconfig/basmuthar.pc
	install -m 755 basmuthar $(BOARD) $(BIN)
	install -m 755 $(PROGRAM) $(LIBEXEC)
	for page in man/*.1; do $(FILL) $$page >$(MAN)/$${page##*/} || exit 1; done
	install -m 644 $(PAGES) $(DOC)
	install -m 644 $(EXAMPLES) $(DOC)/examples

uninstall:
	rm -f $(LIB)/libbasmuthar.a $(LIB)/libbasmuthar.so $(LIB)/$(SONAME) $(LIB)/libbasmuthar.so.$(VERSION)
	rm -f $(LIB)/pkgconfig/basmuthar.pc $(INCLUDE)/basmuthar.h $(BIN)/basmuthar $(BIN)/board
	rm -f $(MAN)/basmuthar.1 $(MAN)/board.1
	rm -rf $(LIBEXEC) $(DOC)
