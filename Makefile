# Builds the program's package and the library, and installs them.
#
#   make prove       proves and builds the program and the store within the library. This alone needs the kit.
#   make             the libraries, the program and lcrvm.pc, in build/
#   make install     with PREFIX=/usr/local, DESTDIR, and BINDIR, LIBDIR, INCLUDEDIR, MANDIR, DOCDIR, COMPLETIONDIR
#   make install-strip   the same, without the symbols of the program and of the shared library
#   make uninstall   takes away what install has put there
#   make python      the Python package with the library and the program within, as a wheel in build/wheel/
#   make dist        build/lcrvm-VERSION.tar.gz, from which all of it is installed without the kit
#   make clean
#
# CC, CPPFLAGS, CFLAGS and LDFLAGS are as ever. PROGRAM, STORE and HEAP name the program, the archive of the store and
# the kit's heap where they are others. PROVED is the folder of what `make prove` has kept. PROJECT_URL is the address
# of these files, for the metadata of the wheel.

VERSION := $(shell sed -n 's/^__version__ = "\(.*\)"$$/\1/p' clients/python/lcrvm/__init__.py)
$(if $(VERSION),,$(error clients/python/lcrvm/__init__.py has no __version__))

PROGRAM ?= crates/lcrvm/out/lcrvm
STORE ?= crates/lc_c/out/liblc_c.a
HEAP ?= build/liblibc_c.a
PROVED ?= build/proved

CFLAGS ?= -O2 -fstack-protector-strong -U_FORTIFY_SOURCE -D_FORTIFY_SOURCE=2
AR ?= ar
LD ?= ld
OBJCOPY ?= objcopy
PYTHON ?= python3

built := build
objects := build/embedded.o
map := clients/c/lcrvm.map
compile = $(CC) -std=c11 -Wall -Wextra -pthread -fPIC -Iinclude $(CPPFLAGS) $(CFLAGS) -fno-lto

.DEFAULT_GOAL := all
.DELETE_ON_ERROR:
include packaging/install.mk

.PHONY: all
all: build/lcrvm build/$(library) build/$(soname) build/liblcrvm.a build/lcrvm.pc

# ---- What is proved. Each crate leaves what the checker said, and the checksum of what it built.

.PHONY: prove
prove:
	packaging/prove.sh lcrvm crates/lcrvm/out/lcrvm run -- lines
	packaging/prove.sh lc_c crates/lc_c/out/liblc_c.a lib
	rm -f build/liblibc_c.a
	$(MAKE) --no-print-directory build/liblibc_c.a

$(PROGRAM) $(STORE):
	@echo "$@ is missing: make prove builds it" >&2; exit 1

build/liblibc_c.a: | build
	@kit=$$(rt doc | head -n 1); [ -n "$$kit" ] || { echo "$@ is missing: rt on the path, or HEAP=FILE" >&2; exit 1; }; \
	    cp "$$(dirname "$$kit")/c/liblibc_c.a" $@

# ---- The libraries. All is built anew where the compiler, a flag or the name of an archive is another than before.

build:
	mkdir -p build

.PHONY: always
build/flags: always | build
	@printf '%s\n' '$(compile) $(LDFLAGS) $(PROGRAM) $(STORE) $(HEAP)' | cmp -s - $@ || \
	    printf '%s\n' '$(compile) $(LDFLAGS) $(PROGRAM) $(STORE) $(HEAP)' > $@

build/%.o: clients/c/%.c build/flags
	$(compile) -MMD -MP -c $< -o $@
-include $(objects:.o=.d)

build/lcrvm: $(PROGRAM) build/flags
	$(INSTALL) -m 755 $(PROGRAM) $@

build/$(library): $(objects) $(STORE) $(HEAP) $(map) build/flags
	$(CC) -shared -pthread $(CFLAGS) $(LDFLAGS) -Wl,-soname,$(soname) -Wl,--version-script=$(map) -Wl,--gc-sections \
	    -Wl,-z,defs -Wl,-z,relro -Wl,-z,now -Wl,-z,noexecstack -o $@ $(objects) $(STORE) $(HEAP)

build/$(soname): build/$(library)
	ln -sf $(library) $@

# One object, in which every name but those of the map is local.
build/names: $(map) | build
	sed -n 's/^ *\(lcrvm_[a-z_]*\);$$/\1/p' $(map) > $@

build/liblcrvm.a: $(objects) $(STORE) $(HEAP) build/names build/flags
	$(LD) -r -z noexecstack -o build/whole.o $(objects) $(STORE) $(HEAP)
	$(OBJCOPY) --keep-global-symbols=build/names build/whole.o
	rm -f $@
	$(AR) rcs $@ build/whole.o
	rm -f build/whole.o

# It has the folders of the last call, and is written only where they are others.
build/lcrvm.pc: always | build
	@printf '%s\n' "$$pkgconfig" | cmp -s - $@ || printf '%s\n' "$$pkgconfig" > $@

# ---- The package for Python, and the archive of all.

package := clients/python
modules = $(wildcard $(package)/*.py $(package)/*.toml $(addprefix $(package)/lcrvm/,*.py *.pyi *.c py.typed))

.PHONY: python
python: build/wheel.made

build/wheel.made: build/lcrvm build/$(library) $(modules) include/lcrvm.h README.md LICENSE-MIT LICENSE-APACHE
	$(INSTALL) -m 644 build/$(library) $(package)/lcrvm/$(soname)
	$(INSTALL) -d $(package)/scripts
	$(INSTALL) -m 755 build/lcrvm $(package)/scripts/lcrvm
	rm -rf build/wheel && mkdir build/wheel
	cd $(package) && CC='$(CC)' CFLAGS='$(CFLAGS)' PYTHONDONTWRITEBYTECODE=1 \
	    $(PYTHON) -c 'import build_backend; build_backend.build_wheel("../../build/wheel")'
	touch $@

# It is packed anew each time, since PROOF names the commit.
.PHONY: dist
dist: build/lcrvm build/$(library) build/liblcrvm.a build/wheel.made
	packaging/dist.sh $(VERSION) $(PROVED) $(PROGRAM) $(STORE) $(HEAP)

.PHONY: clean
clean:
	rm -rf build $(package)/scripts $(package)/lcrvm/*.so $(package)/lcrvm/*.so.*
