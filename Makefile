# Installs gtpshow: the program, its manual page, completions for three shells, the pages, the reference of the public calls, test
# vectors, the examples and, where scripts/page has made it, the program as a page for browsers; and for C programs the library, the
# toolchain's functions for memory that it calls, the header and gtp.pc (pkg-config).
#
#   make                          proves and builds the program (scripts/prove) and the library (scripts/library), if they are not built
#   make install PREFIX=/usr      installs it below PREFIX, by default /usr/local; DESTDIR goes in front. With an empty PREFIX gtp.pc
#                                 names the folders from where it stands, so that the tree may be moved (scripts/release)
#   make uninstall PREFIX=/usr    removes what was installed
PREFIX ?= /usr/local
DESTDIR ?=
INSTALL ?= install

program = crates/gtpshow/out/gtpshow
library = crates/gtp_c/out/libgtp_c.a
browsers = out/page/gtpshow.html
heap = $(dir $(shell rt doc))c/liblibc_c.a
root = $(DESTDIR)$(PREFIX)
pages = $(root)/share/doc/gtpshow
shell_files = \
	$(root)/share/bash-completion/completions/gtpshow \
	$(root)/share/zsh/site-functions/_gtpshow \
	$(root)/share/fish/vendor_completions.d/gtpshow.fish
c_files = $(addprefix $(root)/lib/,libgtp_c.a liblibc_c.a pkgconfig/gtp.pc) $(root)/include/gtp.h
rust = $(root)/share/gtp/rust
# Pages that are not installed: where an installed page links to one of them, or to a source, the words of the link stay.
left_out = \.\.\/crates|\.\.\/README|\.\.\/tests|ARCHITECTURE|CONTRIBUTING|DECISIONS|DEFINITIONS|PERFORMANCE|README|TESTING|WRONG-MACHINES

.PHONY: all install uninstall

all: $(program) $(library)

$(program):
	scripts/prove

$(library):
	scripts/library > /dev/null

install: $(program) $(library)
	$(INSTALL) -D -m 755 $(program) $(root)/bin/gtpshow
	$(INSTALL) -D -m 644 share/gtpshow.1 $(root)/share/man/man1/gtpshow.1
	$(INSTALL) -D -m 644 share/completions/gtpshow.bash $(word 1,$(shell_files))
	$(INSTALL) -D -m 644 share/completions/gtpshow.zsh $(word 2,$(shell_files))
	$(INSTALL) -D -m 644 share/completions/gtpshow.fish $(word 3,$(shell_files))
	$(INSTALL) -D -m 644 $(library) $(root)/lib/libgtp_c.a
	$(INSTALL) -D -m 644 $(heap) $(root)/lib/liblibc_c.a
	$(INSTALL) -D -m 644 include/gtp.h $(root)/include/gtp.h
	$(INSTALL) -d $(root)/lib/pkgconfig
	sed 's|@PREFIX@|$(or $(PREFIX),$${pcfiledir}/../..)|' share/gtp.pc > $(root)/lib/pkgconfig/gtp.pc
	$(INSTALL) -d $(pages)/examples
	$(INSTALL) -m 644 docs/PROTOCOL.md docs/FORMATS.md docs/ELEMENTS.md docs/JSON.md docs/C.md docs/PROVED.md docs/BELIEVE.md docs/CHANGELOG.md docs/SECURITY.md docs/PAGE.md docs/page-capture.png docs/page-scenario.png $(pages)
	sed -i 's|](../include/|](../../../include/|g; s|](../examples/|](examples/|g; s|](../rust/gtp)|](../../gtp/rust)|g' $(pages)/*.md
	sed -i -E 's/\[([^]]*)\]\(($(left_out))[^)]*\)/\1/g' $(pages)/*.md
	scripts/reference $(pages)/reference.html > /dev/null
	scripts/vectors $(pages)/vectors > /dev/null
	cd $(pages)/vectors && sha256sum control.jsonl user.jsonl > SHA256SUMS
	if [ -f $(browsers) ]; then $(INSTALL) -m 644 $(browsers) $(pages); else echo 'install: no page for browsers, since scripts/page has not made it' >&2; fi
	cp -R examples/scenarios examples/captures examples/datagrams examples/bridge examples/c examples/rust $(pages)/examples
	rm -rf $(pages)/examples/rust/target
	sed -i 's|"../../rust/gtp"|"../../../../gtp/rust"|' $(pages)/examples/rust/Cargo.toml
	$(INSTALL) -d $(rust)/src
	$(INSTALL) -m 644 rust/gtp/Cargo.toml rust/gtp/build.rs $(rust)
	$(INSTALL) -m 644 $(wildcard rust/gtp/src/*.rs) $(rust)/src

uninstall:
	rm -f $(root)/bin/gtpshow $(root)/share/man/man1/gtpshow.1 $(shell_files) $(c_files)
	rm -rf $(pages) $(rust)
