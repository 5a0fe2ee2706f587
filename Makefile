# Builds the library and the tool, and installs them with the header and a file for pkg-config.
#   make                               the library (tools/staticlib, which runs rt) and the tool (cargo)
#   make install PREFIX=/some/folder   bin, include, lib and lib/pkgconfig there; DESTDIR goes in front, for packages
PREFIX ?= /usr/local
DESTDIR ?=

# The file for pkg-config names the folder.
ifeq ($(filter /%,$(PREFIX)),)
$(error PREFIX must be an absolute path)
endif

LIBRARY = target/staticlib/libtrackrouter.a
TOOL = target/rust/release/trackrouter
VERSION = 0.$(shell sed -n 's/^#define TRACKROUTER_VERSION //p' include/trackrouter.h).0

# crates/*/out has what rt makes, copies of these files too.
SOURCES = crates.txt $(shell find crates/*/src crates/*/specs crates/*/proofs -name '*.rt' -o -name '*.antt')
RUST = rust/Cargo.toml rust/build.rs $(shell find rust/src -name '*.rs')

.PHONY: all install
all: $(LIBRARY) $(TOOL)

$(LIBRARY): $(SOURCES)
	tools/staticlib
	touch $@

$(TOOL): $(LIBRARY) $(RUST)
	TRACKROUTER_LIB_DIR=$(CURDIR)/target/staticlib cargo build --release --offline --manifest-path rust/Cargo.toml --target-dir target/rust
	touch $@

install: all
	install -d $(DESTDIR)$(PREFIX)/bin $(DESTDIR)$(PREFIX)/include $(DESTDIR)$(PREFIX)/lib/pkgconfig
	install -m 755 $(TOOL) $(DESTDIR)$(PREFIX)/bin/trackrouter
	install -m 644 include/trackrouter.h $(DESTDIR)$(PREFIX)/include/trackrouter.h
	install -m 644 $(LIBRARY) $(DESTDIR)$(PREFIX)/lib/libtrackrouter.a
	sed -e 's|@PREFIX@|$(PREFIX)|' -e 's|@VERSION@|$(VERSION)|' include/trackrouter.pc.in > $(DESTDIR)$(PREFIX)/lib/pkgconfig/trackrouter.pc
	chmod 644 $(DESTDIR)$(PREFIX)/lib/pkgconfig/trackrouter.pc
