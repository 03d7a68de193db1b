# make                    proves and builds the C library, target/lib/libmesh3d.a, and the programs on texts, target/bin
# make oar                bakes the oar of examples/ and writes target/oar.svg
# make install PREFIX=..  puts header, archive and pkg-config file under PREFIX, /usr/local if it is not given
# make test               builds and runs the C and C++ callers of harness/c/tests over it
PREFIX = /usr/local
LIBRARY = target/lib/libmesh3d.a
SOURCES = $(shell find crates -name out -prune -o \( -name '*.rt' -o -name '*.antt' \) -print) crates.txt include/mesh3d.h \
	harness/c/build harness/c/text.c

$(LIBRARY): $(SOURCES)
	bash harness/c/build

oar: $(LIBRARY)
	$(CC) -std=c99 -O2 -ffp-contract=off -Iinclude examples/oar.c $(LIBRARY) -o target/oar
	target/oar >target/oar.svg
	@cmp target/oar.svg examples/oar.svg && echo "target/oar.svg: the picture of examples/oar.svg"

install: $(LIBRARY)
	install -d "$(DESTDIR)$(PREFIX)/include" "$(DESTDIR)$(PREFIX)/lib/pkgconfig"
	install -m 644 include/mesh3d.h "$(DESTDIR)$(PREFIX)/include"
	install -m 644 $(LIBRARY) "$(DESTDIR)$(PREFIX)/lib"
	sed 's|@PREFIX@|$(PREFIX)|' harness/c/mesh3d.pc.in >"$(DESTDIR)$(PREFIX)/lib/pkgconfig/mesh3d.pc"

test: $(LIBRARY)
	bash harness/c/tests/run

.PHONY: oar install test
