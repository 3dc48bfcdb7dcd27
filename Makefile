# what rt proves before it builds, so that each is built anew only where a source is newer
SOURCES = crates.txt $(shell find crates -name out -prune -o \( -name '*.rt' -o -name '*.antt' \) -print)

# the listing of a net file, of the door corner's where none is named: make list NET=path
NET ?= crates/listing/stdin
LISTING = target/bin/listing

list: $(LISTING)
	@$(LISTING) <$(NET)

# rt builds a program where it runs it
$(LISTING): $(SOURCES)
	@echo "proving and building the listing program, which takes some minutes the first time" >&2
	@mkdir -p target
	@(cd crates/listing && rt run) <crates/listing/stdin >target/list.log 2>&1 || { cat target/list.log >&2; exit 1; }
	@install -D crates/listing/out/listing $(LISTING)

# the static library, for every x86-64 processor: what rt builds otherwise needs those of x86-64-v2
LIBRARY = target/staticlib/libups.a

lib: $(LIBRARY)

$(LIBRARY): $(SOURCES)
	@echo "proving and building the library, which takes some minutes the first time"
	@mkdir -p target
	@(cd crates/ups && rt lib --cpu x86-64) >target/lib.log 2>&1 || { cat target/lib.log >&2; exit 1; }
	@install -D -m 644 crates/ups/out/libups.a $(LIBRARY)

# library, header and pkg-config's file: make install PREFIX=path; DESTDIR is for packages, and ups.pc does not name it
PREFIX ?= /usr/local
TO = $(DESTDIR)$(PREFIX)

# ups.pc is installed for its mode and then filled in; its prefix is absolute, as it is used from any folder
install: lib
	install -d "$(TO)/lib/pkgconfig" "$(TO)/include"
	install -m 644 $(LIBRARY) "$(TO)/lib/libups.a"
	install -m 644 include/ups.h "$(TO)/include/ups.h"
	install -m 644 ups.pc.in "$(TO)/lib/pkgconfig/ups.pc"
	sed 's|@PREFIX@|$(abspath $(PREFIX))|' ups.pc.in >"$(TO)/lib/pkgconfig/ups.pc"

uninstall:
	rm -f "$(TO)/lib/libups.a" "$(TO)/include/ups.h" "$(TO)/lib/pkgconfig/ups.pc" "$(TO)/bin/ups"

# the program ups: make install-desk PREFIX=path puts it into PREFIX/bin
desk: lib
	cd desk && CARGO_TARGET_DIR=../target/rust-desk cargo build --offline --release
	install -D target/rust-desk/release/ups target/desk/ups

install-desk: desk
	install -d "$(TO)/bin"
	install target/desk/ups "$(TO)/bin/ups"

# the kernel's time over plain Rust's
bench: lib
	cd bench && CARGO_TARGET_DIR=../target/rust-bench cargo run --offline --release

.PHONY: list lib install uninstall desk install-desk bench
