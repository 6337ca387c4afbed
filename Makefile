# luks: what can be done here, each by `make TARGET`.
#
#   demo      run the main job, unproved: luks check on the sample image; ends with 'accepted luks1 areas 10'
#   program   compile the program without a proof, in a minute or two: bin/luks-unproved
#   test      run all tests, unproved, in some minutes: the suite of tests/ over bin/luks-unproved, and the tests that are written in Rattle. First it
#             looks that texts, lists, wrong bodies and the budget of lines are as they should be
#   build     prove and build the program: bin/luks
#   library   prove and build libluks, the calls for C and Python: bin/libluks.so.1 and bin/libluks.a
#   gate      the merge gate: every proof from nothing, the suite over the proved program, and the wrong bodies that must be refused. It prints the
#             processor time that each crate took, and the sums
#   quick     between gates: prove and test the crates that changed since BASE (the last commit), and what depends on them
#   plants    between gates: try the wrong bodies of CRATE (of all crates), and keep in tools/plants-refused which were refused;
#             tools/plants --readable says in seconds whether each can be planted
#   texts     make all texts that repeat docs/commands.table: the helps, parts of the manual page and of COMMANDS, and the completions
#   install   put the program into PREFIX/bin, its manual page into MANDIR, its completions into BASHCOMPDIR, ZSHCOMPDIR and FISHCOMPDIR. PREFIX is
#             /usr/local, the others are Debian's places under it; for fish it is /etc/fish/completions, since fish looks into no folder under
#             /usr/local. All are under DESTDIR if that is given
#   uninstall  remove these, and those of install-library
#   install-library  put libluks, its header, libluks.pc and the Python module under PREFIX. PYTHONDIR is the module's folder; if it isn't given, that
#             is where Debian's Python looks. Without DESTDIR the loader's list is made anew (LDCONFIG)
#   dist      the archive dist/luks-VERSION-linux-x86_64.tar.gz for a system without rt: the program, also linked statically, its pages, libluks and
#             install.sh
#   deb       the package dist/luks_VERSION_amd64.deb for Debian, and those of libluks: libluks1, libluks-dev and python3-luks. dist/SHA256SUMS has
#             the sums of all
#   bench     times and memory, beside other implementations
#   interop   compare with cryptsetup: volumes that it makes are checked and opened by bin/luks; also each command of docs/RESCUE.md, the manual page,
#             libluks and both packages
#   clean     remove what the others made
#   help      this list
#
# The first target that needs the proved program proves everything first: README says how long that takes.
# Rattle's command rt proves and builds. It writes its progress on standard error, and `rt run` ends with the program's own status.

RT ?= rt
PREFIX ?= /usr/local
DESTDIR ?=
MANDIR ?= $(PREFIX)/share/man
BASHCOMPDIR ?= $(PREFIX)/share/bash-completion/completions
ZSHCOMPDIR ?= $(PREFIX)/share/zsh/$(if $(filter /usr,$(PREFIX)),vendor-completions,site-functions)
# Debian's Python looks into one folder for all versions below /usr, and into one for each version below /usr/local
PYTHONDIR ?= $(PREFIX)/lib/$(if $(filter /usr,$(PREFIX)),python3,$(shell /usr/bin/python3 -c 'import sys; print("python%d.%d" % sys.version_info[:2])' \
  2>/dev/null || echo python3))/dist-packages
LDCONFIG ?= $(if $(DESTDIR),:,/sbin/ldconfig)
PYTHON_FILES := __init__.py library.py numbers.py records.py py.typed
FISHCOMPDIR ?= $(if $(filter /usr/local,$(PREFIX)),/etc/fish/completions,$(PREFIX)/share/fish/vendor_completions.d)

SOURCES := crates.txt $(shell find crates -name out -prune -o -type f -print)

.PHONY: help demo program build library install-library test gate quick plants texts install uninstall dist deb bench interop clean toolchain

help:
	@sed -n '/^#/!q; s/^#$$//p; s/^# //p' $(firstword $(MAKEFILE_LIST))

demo: toolchain
	@RT="$(RT)" tools/demo

program: toolchain
	@RT="$(RT)" tools/program

# The program that is run here only prints its help: its status is 0 exactly if it was proved and built, and runs.
define build_program
	@RT="$(RT)" tools/prove luks
	cd crates/luks && RT="$(RT)" ../../tools/rt run -- --help >/dev/null
	install -D -m 755 crates/luks/out/luks bin/luks
endef

build: toolchain
	$(build_program)

bin/luks: $(SOURCES)
	@$(MAKE) --no-print-directory build

library: toolchain
	@RT="$(RT)" tools/prove luks_c
	cd crates/luks_c && RT="$(RT)" ../../tools/rt lib
	@RT="$(RT)" tools/library

bin/libluks.so.1: $(SOURCES) tools/library $(wildcard library/*) CHANGELOG.md
	@$(MAKE) --no-print-directory library

test: toolchain
	@RT="$(RT)" tools/test

gate: toolchain
	@RT="$(RT)" tools/times

quick: toolchain
	@RT="$(RT)" tools/quick $(or $(BASE),HEAD)

plants: toolchain
	@RT="$(RT)" tools/plants $(CRATE)

texts:
	@tools/commands

install: bin/luks
	install -D -m 755 bin/luks "$(DESTDIR)$(PREFIX)/bin/luks"
	install -D -m 644 docs/luks.1 "$(DESTDIR)$(MANDIR)/man1/luks.1"
	install -D -m 644 completions/luks.bash "$(DESTDIR)$(BASHCOMPDIR)/luks"
	install -D -m 644 completions/_luks "$(DESTDIR)$(ZSHCOMPDIR)/_luks"
	install -D -m 644 completions/luks.fish "$(DESTDIR)$(FISHCOMPDIR)/luks.fish"

install-library: bin/libluks.so.1
	install -D -m 644 bin/libluks.so.1 "$(DESTDIR)$(PREFIX)/lib/libluks.so.1"
	ln -sf libluks.so.1 "$(DESTDIR)$(PREFIX)/lib/libluks.so"
	install -D -m 644 bin/libluks.a "$(DESTDIR)$(PREFIX)/lib/libluks.a"
	install -D -m 644 library/luks.h "$(DESTDIR)$(PREFIX)/include/luks.h"
	for name in $(PYTHON_FILES); do install -D -m 644 "python/luks/$$name" "$(DESTDIR)$(PYTHONDIR)/luks/$$name" || exit 1; done
	mkdir -p "$(DESTDIR)$(PREFIX)/lib/pkgconfig"
	sed -e 's|@PREFIX@|$(PREFIX)|' -e "s|@VERSION@|$$(sed -n 's/^## \([0-9.+]*\) .*/\1/p' CHANGELOG.md | head -n 1)|" library/libluks.pc.in \
	  >"$(DESTDIR)$(PREFIX)/lib/pkgconfig/libluks.pc"
	-$(LDCONFIG)

uninstall:
	rm -f "$(DESTDIR)$(PREFIX)/bin/luks" "$(DESTDIR)$(MANDIR)/man1/luks.1" "$(DESTDIR)$(BASHCOMPDIR)/luks" \
	  "$(DESTDIR)$(ZSHCOMPDIR)/_luks" "$(DESTDIR)$(FISHCOMPDIR)/luks.fish"
	rm -f "$(DESTDIR)$(PREFIX)/lib/libluks.so.1" "$(DESTDIR)$(PREFIX)/lib/libluks.so" "$(DESTDIR)$(PREFIX)/lib/libluks.a" \
	  "$(DESTDIR)$(PREFIX)/include/luks.h" "$(DESTDIR)$(PREFIX)/lib/pkgconfig/libluks.pc"
	for name in $(PYTHON_FILES); do rm -f "$(DESTDIR)$(PYTHONDIR)/luks/$$name"; done
	rm -rf "$(DESTDIR)$(PYTHONDIR)/luks/__pycache__"
	-[ ! -d "$(DESTDIR)$(PYTHONDIR)/luks" ] || rmdir "$(DESTDIR)$(PYTHONDIR)/luks"
	-$(LDCONFIG)

dist: bin/luks bin/libluks.so.1
	@RT="$(RT)" tools/package archive

deb: bin/luks bin/libluks.so.1
	@RT="$(RT)" tools/package debian
	@RT="$(RT)" tools/package library

bench: bin/luks
	bench/run

interop: bin/luks bin/libluks.so.1
	interop/run --install
	tests/run --program bin/luks --all interop

clean:
	rm -rf bin dist crates/*/out

toolchain:
	@command -v $(RT) >/dev/null || { \
	  echo "luks: Rattle's command '$(RT)' isn't on PATH. It proves, builds and tests everything here; README says which kit has it." >&2; \
	  exit 1; }
