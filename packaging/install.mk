# Installs what was built, and takes it away again. The Makefile of the repository and that of an archive read it. They
# say VERSION, and in `built` the folder of the program and the libraries.

PREFIX ?= /usr/local
BINDIR ?= $(PREFIX)/bin
LIBDIR ?= $(PREFIX)/lib
INCLUDEDIR ?= $(PREFIX)/include
MANDIR ?= $(PREFIX)/share/man
DOCDIR ?= $(PREFIX)/share/doc/lcrvm
COMPLETIONDIR ?= $(PREFIX)/share/bash-completion/completions
INSTALL ?= install
LDCONFIG ?= ldconfig

soname := liblcrvm.so.$(firstword $(subst ., ,$(VERSION)))
library := liblcrvm.so.$(VERSION)
# lcrvm(3) by the name of each call that its first lines list.
calls := $(if $(wildcard man/lcrvm.3),$(shell sed -n '/^\.SH NAME/,/^\.SH LIBRARY/{/^lcrvm_/p}' man/lcrvm.3 | tr -d ,))

define pkgconfig
prefix=$(PREFIX)
libdir=$(LIBDIR)
includedir=$(INCLUDEDIR)

Name: lcrvm
Description: Transactions on bytes that outlive a crash
Version: $(VERSION)
Libs: -L$${libdir} -llcrvm
Libs.private: -pthread
Cflags: -I$${includedir}
endef
export pkgconfig

# The linker's cache is renewed by root alone; of a package, for which DESTDIR is given, by whoever installs that.
define renew_cache
@PATH="$$PATH:/usr/sbin:/sbin"; if [ -n "$(DESTDIR)" ]; then :; \
    elif [ "$$(id -u)" -eq 0 ] && command -v $(LDCONFIG) > /dev/null; then $(LDCONFIG); \
    else echo "Where the linker's cache has $(LIBDIR), ldconfig renews it."; fi
endef

.PHONY: install install-strip uninstall
install-strip:
	$(MAKE) --no-print-directory install strip=-s

install: $(built)/lcrvm $(built)/$(library) $(built)/liblcrvm.a
	$(INSTALL) -d "$(DESTDIR)$(BINDIR)" "$(DESTDIR)$(LIBDIR)/pkgconfig" "$(DESTDIR)$(INCLUDEDIR)" \
	    "$(DESTDIR)$(MANDIR)/man1" "$(DESTDIR)$(MANDIR)/man3" "$(DESTDIR)$(DOCDIR)" "$(DESTDIR)$(COMPLETIONDIR)"
	$(INSTALL) $(strip) -m 755 $(built)/lcrvm "$(DESTDIR)$(BINDIR)/lcrvm"
	$(INSTALL) $(strip) -m 644 $(built)/$(library) "$(DESTDIR)$(LIBDIR)/$(library)"
	ln -sf $(library) "$(DESTDIR)$(LIBDIR)/$(soname)"
	ln -sf $(soname) "$(DESTDIR)$(LIBDIR)/liblcrvm.so"
	$(INSTALL) -m 644 $(built)/liblcrvm.a "$(DESTDIR)$(LIBDIR)/liblcrvm.a"
	$(INSTALL) -m 644 include/lcrvm.h include/lcrvm.hpp "$(DESTDIR)$(INCLUDEDIR)"
	printf '%s\n' "$$pkgconfig" > "$(DESTDIR)$(LIBDIR)/pkgconfig/lcrvm.pc"
	chmod 644 "$(DESTDIR)$(LIBDIR)/pkgconfig/lcrvm.pc"
	$(INSTALL) -m 644 man/lcrvm.1 "$(DESTDIR)$(MANDIR)/man1/lcrvm.1"
	$(INSTALL) -m 644 man/lcrvm.3 "$(DESTDIR)$(MANDIR)/man3/lcrvm.3"
	for call in $(calls); do ln -sf lcrvm.3 "$(DESTDIR)$(MANDIR)/man3/$$call.3" || exit 1; done
	$(INSTALL) -m 644 LICENSE-MIT LICENSE-APACHE "$(DESTDIR)$(DOCDIR)"
	$(INSTALL) -m 644 completion/lcrvm.bash "$(DESTDIR)$(COMPLETIONDIR)/lcrvm"
	$(renew_cache)

# Of the library each version with this soname goes.
uninstall:
	rm -f "$(DESTDIR)$(BINDIR)/lcrvm" "$(DESTDIR)$(LIBDIR)/liblcrvm.a" "$(DESTDIR)$(LIBDIR)/pkgconfig/lcrvm.pc" \
	    "$(DESTDIR)$(LIBDIR)/liblcrvm.so" "$(DESTDIR)$(LIBDIR)/$(soname)" "$(DESTDIR)$(LIBDIR)/$(soname)".* \
	    "$(DESTDIR)$(INCLUDEDIR)/lcrvm.h" "$(DESTDIR)$(INCLUDEDIR)/lcrvm.hpp" \
	    "$(DESTDIR)$(MANDIR)/man1/lcrvm.1" "$(DESTDIR)$(MANDIR)/man3/lcrvm.3" \
	    $(patsubst %,"$(DESTDIR)$(MANDIR)/man3/%.3",$(calls)) \
	    "$(DESTDIR)$(DOCDIR)/LICENSE-MIT" "$(DESTDIR)$(DOCDIR)/LICENSE-APACHE" "$(DESTDIR)$(COMPLETIONDIR)/lcrvm"
	[ ! -d "$(DESTDIR)$(DOCDIR)" ] || rmdir --ignore-fail-on-non-empty "$(DESTDIR)$(DOCDIR)"
	$(renew_cache)
