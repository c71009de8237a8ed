# make           prove and build every crate, the programs and the static library
# make lib       prove and build the static library alone
# make test      everything the gate runs; the verdict is its last line
# make bench     measure the library against plain Rust, and write docs/BENCHMARKS.md
# make time      how long the gate's proofs and edits of the commit BASE take, and those of HEAD: make time BASE=REVISION
# make install   put the header, the static library, its pkg-config file and the programs below PREFIX, inside DESTDIR
.PHONY: all lib programs test bench time install tools

PREFIX = /usr/local
DESTDIR =
place = $(DESTDIR)$(PREFIX)

all: tools
	bin/build

lib: tools
	bin/build cogsplice_c

programs: tools
	bin/build vouch_report vouch_order

test: tools
	@tests/gate

bench: lib
	cargo run --quiet --release --manifest-path bench/Cargo.toml

time: tools
	@tests/time $(BASE)

install: tools
	bin/build cogsplice_c vouch_report vouch_order
	install -d "$(place)/include" "$(place)/lib/pkgconfig" "$(place)/bin"
	install -m 644 include/cogsplice.h "$(place)/include/cogsplice.h"
	install -m 644 target/staticlib/libcogsplice_c.a "$(place)/lib/libcogsplice_c.a"
	sed 's|@PREFIX@|$(PREFIX)|' include/cogsplice.pc.in > "$(place)/lib/pkgconfig/cogsplice.pc"
	install -m 755 target/bin/vouch_report "$(place)/bin/vouch-report"
	install -m 755 target/bin/vouch_order "$(place)/bin/vouch-order"

tools:
	@tests/tools
