# The C library: build/libplacer.a and build/libplacer.so, for x86-64 Linux only. The archive is compiled from proved code: `rt lib`
# proves what has changed and then writes it. `make install` takes PREFIX, LIBDIR and DESTDIR; `make dist` writes a release that needs no
# Rattle kit, `make wheel` the Python package with the library inside, both to dist/; `make test` runs the tests from outside.
PREFIX ?= /usr/local
LIBDIR ?= $(PREFIX)/lib
DESTDIR ?=
VERSION := $(shell sed -n 's/^.define PLACER_VERSION "\([0-9.]*\)".*/\1/p' include/placer.h)
MAJOR := $(firstword $(subst ., ,$(VERSION)))
RELEASE := placer-$(VERSION)-linux-x86_64
UNPACKED := build/release/$(RELEASE)
PAGES := FORMATS.md refusals.tsv SCOPE.md WHEN-TO-USE.md BENCHMARKS.md benchmarks.svg
SOURCES := $(shell find crates -name out -prune -o '(' -name '*.rt' -o -name '*.antt' ')' -print) crates.txt
# code for every x86-64 processor
CPU := --cpu x86-64

ifneq ($(words [$(DESTDIR)$(PREFIX)$(LIBDIR)]) $(words $(PREFIX) $(LIBDIR)) $(filter-out /%,$(PREFIX) $(LIBDIR)),1 2 )
$(error PREFIX and LIBDIR are absolute paths, and they and DESTDIR have no spaces)
endif

all: build/libplacer.a build/libplacer.so

build/libplacer.a: $(SOURCES)
	cd crates/placer_c && rt lib $(CPU)
	mkdir -p build
	rt version > build/PROVED-BY
	cp crates/placer_c/out/libplacer_c.a $@

build/libplacer.so: build/libplacer.a
	$(CC) -shared -Wl,-z,now -Wl,-soname,libplacer.so.$(MAJOR) -Wl,--whole-archive $< -Wl,--no-whole-archive -o $@
	ln -sf libplacer.so build/libplacer.so.$(MAJOR)

# the printing program, of which only a proved one is linked; `rt run` runs it too, where it finds no files
build/place: $(SOURCES)
	cd crates/place && rt run $(CPU) >/dev/null
	mkdir -p build
	cp crates/place/out/place $@

# the way from one installed folder to another
way = $(shell realpath -m -s --relative-to=$(1) $(2))

install: all build/place
	install -d $(addprefix $(DESTDIR)$(PREFIX)/,bin include share/placer/python/placer)
	install -d $(addprefix $(DESTDIR)$(LIBDIR)/,pkgconfig cmake/placer)
	install -m 755 build/place $(DESTDIR)$(PREFIX)/bin
	install -m 644 include/*.h $(DESTDIR)$(PREFIX)/include
	install -m 644 build/libplacer.a $(DESTDIR)$(LIBDIR)
	install -m 755 build/libplacer.so $(DESTDIR)$(LIBDIR)/libplacer.so.$(VERSION)
	ln -sf libplacer.so.$(VERSION) $(DESTDIR)$(LIBDIR)/libplacer.so.$(MAJOR)
	ln -sf libplacer.so.$(MAJOR) $(DESTDIR)$(LIBDIR)/libplacer.so
	sed 's|@PREFIX@|$(PREFIX)|; s|@LIBDIR@|$(LIBDIR)|; s|@VERSION@|$(VERSION)|' packaging/placer.pc.in \
	    > $(DESTDIR)$(LIBDIR)/pkgconfig/placer.pc
	for file in packaging/*.cmake; do \
	    sed 's|@INCLUDE@|$(call way,$(LIBDIR)/cmake/placer,$(PREFIX)/include)|; s|@VERSION@|$(VERSION)|; s|@MAJOR@|$(MAJOR)|' $$file \
	        > $(DESTDIR)$(LIBDIR)/cmake/placer/$${file#packaging/}; \
	done
	install -m 644 bindings/python/placer/*.py bindings/python/placer/py.typed $(DESTDIR)$(PREFIX)/share/placer/python/placer
	sed 's|@LIBRARY@|$(call way,$(PREFIX)/bin,$(LIBDIR))/libplacer.so.$(MAJOR)|' bindings/python/launcher.py > $(DESTDIR)$(PREFIX)/bin/placer
	chmod 755 $(DESTDIR)$(PREFIX)/bin/placer
	chmod 644 $(DESTDIR)$(LIBDIR)/pkgconfig/placer.pc $(DESTDIR)$(LIBDIR)/cmake/placer/*.cmake
	for page in man/*.[13]; do install -D -m 644 $$page $(DESTDIR)$(PREFIX)/share/man/man$${page##*.}/$${page#man/}; done

# A release is an installation that can be unpacked anywhere, with the Rust crate, examples and pages to read; the same sources make the
# same bytes.
dist: all build/place
	rm -rf build/release dist/placer-*.tar.gz
	$(MAKE) -s install DESTDIR=build/release PREFIX=/$(RELEASE) LIBDIR=/$(RELEASE)/lib
	sed -i 's|/$(RELEASE)|$${pcfiledir}/../..|' $(UNPACKED)/lib/pkgconfig/placer.pc
	mkdir -p $(UNPACKED)/share/doc/placer $(UNPACKED)/share/placer/rust
	cd bindings/rust && \
	    cp --parents Cargo.toml build.rs $$(find src examples tests -name '[a-z]*.rs') "$(CURDIR)/$(UNPACKED)/share/placer/rust"
	cp --parents $(wildcard $(addprefix examples/,c/*.c c/*.txt csv/*.csv python/*.py python/*.txt)) $(UNPACKED)/share/doc/placer
	cp CHANGELOG.md $(addprefix docs/,$(PAGES)) $(UNPACKED)/share/doc/placer
	cp packaging/README.md LICENSE build/PROVED-BY $(UNPACKED)
	cd $(UNPACKED) && find . -type f ! -name SHA256SUMS | LC_ALL=C sort | xargs sha256sum > SHA256SUMS
	mkdir -p dist
	tar -C build/release --sort=name --mtime=@0 --owner=0 --group=0 --numeric-owner --mode=a+rX,u+w,go-w -I 'gzip -n9' \
	    -cf dist/$(RELEASE).tar.gz $(RELEASE)

wheel: build/libplacer.so
	rm -f dist/placer-*.whl
	python3 bindings/python/backend.py dist

test:
	tests/run

clean:
	rm -rf build dist

.PHONY: all install dist wheel test clean
