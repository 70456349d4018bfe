# What a linker expects: make install PREFIX=/usr/local
#
# Header, static library, shared library, pkg-config file, Fortran module source, hpf and the programs. The proved
# archive and the programs are made by tools/build.sh.

PREFIX ?= /usr/local
DESTDIR ?=
# Where the proved archive and the programs are.
HPF_LIB_DIR ?= target/staticlib
HPF_BIN_DIR ?= target/bin
CC ?= gcc
CFLAGS ?= -O2

header := include/hpf_remap.h
version := $(shell sed -n 's/^.define HPF_VERSION_TEXT "\(.*\)"/\1/p' $(header))
# Formats may change with the second number, so that the name of the shared library has both.
soname := libremap.so.$(basename $(version))
built := target/install
proved := $(HPF_LIB_DIR)/libremap.a
programs := planner runner converter
hpf := cli/target/release/hpf
into := $(DESTDIR)$(PREFIX)

.PHONY: all install uninstall hpf

all: $(built)/libremap.a $(built)/$(soname) $(built)/hpf-remap.pc hpf

$(proved) $(programs:%=$(HPF_BIN_DIR)/%):
	@echo '$@ is missing: tools/build.sh makes it' >&2
	@false

$(built)/words.o: bindings/c/words.c $(header)
	@mkdir -p $(built)
	$(CC) -std=c11 $(CFLAGS) -fPIC -Iinclude -c $< -o $@

# The proved objects as they are, and the two functions that name them.
$(built)/libremap.a: $(proved) $(built)/words.o
	cp $(proved) $@
	chmod u+w $@
	ar rs $@ $(built)/words.o

$(built)/$(soname): $(built)/libremap.a bindings/c/exports.map
	$(CC) -shared -Wl,-soname,$(soname) -Wl,--version-script=bindings/c/exports.map -Wl,-z,defs \
	  -Wl,--whole-archive $< -Wl,--no-whole-archive -o $@

# It has the prefix in it, and so is made anew each time.
.PHONY: $(built)/hpf-remap.pc
$(built)/hpf-remap.pc: bindings/c/hpf-remap.pc.in
	@mkdir -p $(built)
	sed -e 's|@PREFIX@|$(PREFIX)|' -e 's|@VERSION@|$(version)|' $< > $@

hpf: $(proved)
	cd cli && HPF_LIB_DIR='$(abspath $(HPF_LIB_DIR))' cargo build --release --offline --quiet

install: all $(programs:%=$(HPF_BIN_DIR)/%)
	install -d '$(into)/include' '$(into)/lib/pkgconfig' '$(into)/bin' '$(into)/share/hpf-remap'
	install -m 644 $(header) '$(into)/include'
	install -m 644 $(built)/libremap.a '$(into)/lib'
	install -m 755 $(built)/$(soname) '$(into)/lib/libremap.so.$(version)'
	ln -sf libremap.so.$(version) '$(into)/lib/$(soname)'
	ln -sf $(soname) '$(into)/lib/libremap.so'
	install -m 644 $(built)/hpf-remap.pc '$(into)/lib/pkgconfig'
	install -m 644 examples/fortran/hpf_remap.f90 '$(into)/share/hpf-remap'
	install -m 755 $(hpf) $(programs:%=$(HPF_BIN_DIR)/%) '$(into)/bin'

uninstall:
	rm -f '$(into)/include/hpf_remap.h' '$(into)/lib/libremap.a' '$(into)/lib/libremap.so' '$(into)/lib/$(soname)' \
	  '$(into)/lib/libremap.so.$(version)' '$(into)/lib/pkgconfig/hpf-remap.pc'
	rm -rf '$(into)/share/hpf-remap'
	rm -f $(patsubst %,'$(into)/bin/%',hpf $(programs))
