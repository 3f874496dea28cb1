# make demo        a first look: builds build/aspenum-unproved, the program without its proofs, and solves a small timetable
#                  with it, or FILE=x.lp (grounded by gringo) or FILE=x.aspif
# make test        every test and example, with programs that are built without their proofs
# make             proves and builds build/aspenum and build/aspcheck; build/aspground is gringo and aspenum in one command
# make install     installs them with their manuals, completion for bash, zsh and fish, and the Python module; PREFIX (/usr/local)
#                  and DESTDIR (none)
# make uninstall   removes what that installed
# make deb         builds a Debian package in build/
# make check       the gate: every proof, the edits that must fail, and the tests of make test with the proved programs
# make edits       the edits that the gate leaves out; NAMES="asp_text asp_io" those of some crates
# make clean       removes what was built

PREFIX ?= /usr/local
DESTDIR ?=
INSTALL ?= install

SOURCES := crates.txt $(shell find crates -name out -prune -o \( -name '*.rt' -o -name '*.antt' \) -print)
# The checker of proof texts is built where its crate is there.
PROGRAMS := build/aspenum $(if $(wildcard crates/asp_checkprog/src/main.rt),build/aspcheck) build/aspground
PAGES := man/aspenum.1 $(wildcard man/aspcheck.1) man/aspground.1

bin := $(DESTDIR)$(PREFIX)/bin
share := $(DESTDIR)$(PREFIX)/share
man := $(share)/man/man1
bash := $(share)/bash-completion/completions
# Debian's zsh looks for packages' completion in a folder of its own.
zsh := $(share)/zsh/$(if $(filter /usr,$(PREFIX)),vendor-completions,site-functions)
fish := $(share)/fish/vendor_completions.d
# Debian's Python looks for modules of packages in a folder of its own.
python := $(if $(filter /usr,$(PREFIX)),$(DESTDIR)/usr/lib/python3/dist-packages,$(share)/aspenum/python)

all: $(PROGRAMS)

build/aspenum: crates/asp_prog/out/asp_prog
build/aspcheck: crates/asp_checkprog/out/asp_checkprog
build/aspground: bin/aspground
$(PROGRAMS):
	@mkdir -p build
	@cp $< $@

# The gate's first half: it proves on all processors what isn't proved yet, and leaves the programs there.
crates/asp_prog/out/asp_prog crates/asp_checkprog/out/asp_checkprog &: $(SOURCES)
	@$(need_rt)
	@mkdir -p build
	@echo "Proving and building every crate: 30 to 60 minutes on four processors. build/log tells how far it is."
	@rt ci > build/log 2>&1 || { tail -n 20 build/log >&2; exit 1; }

need_rt = command -v rt > /dev/null || { echo "make: the command rt is missing: the Rattle kit proves and builds aspenum; CONTRIBUTING.md tells of it (1. Toolchain)" >&2; exit 1; }

# Nothing is proved here. The code is what the proved program has, so it is as fast.
build/aspenum-unproved build/aspcheck-unproved: $(SOURCES) tools/unproved.sh
	@$(need_rt)
	@echo "Building $@ without its proofs, in two to four minutes of a processor."
	@tools/unproved.sh $(if $(findstring aspcheck,$@),asp_checkprog) $@

demo: build/aspenum-unproved
	@tools/demo.sh $(CURDIR)/$< "$(FILE)"

test: build/aspenum-unproved build/aspcheck-unproved
	@tests/all.sh $(CURDIR)/build/aspenum-unproved $(CURDIR)/build/aspcheck-unproved

install: all
	$(INSTALL) -d $(bin) $(man) $(bash) $(zsh) $(fish) $(python)
	$(INSTALL) -m 755 $(PROGRAMS) $(bin)
	$(INSTALL) -m 644 $(PAGES) $(man)
	$(INSTALL) -m 644 completion/aspenum.bash $(bash)/aspenum
	ln -sf aspenum $(bash)/aspground
	ln -sf aspenum $(bash)/aspcheck
	$(INSTALL) -m 644 completion/_aspenum completion/_aspground completion/_aspcheck $(zsh)
	$(INSTALL) -m 644 python/aspenum.py $(python)
	$(INSTALL) -m 644 completion/aspenum.fish $(fish)
	ln -sf aspenum.fish $(fish)/aspground.fish
	ln -sf aspenum.fish $(fish)/aspcheck.fish

uninstall:
	rm -f $(bin)/aspenum $(bin)/aspcheck $(bin)/aspground $(man)/aspenum.1 $(man)/aspcheck.1 $(man)/aspground.1
	rm -f $(bash)/aspenum $(bash)/aspground $(bash)/aspcheck $(zsh)/_aspenum $(zsh)/_aspground $(zsh)/_aspcheck
	rm -f $(fish)/aspenum.fish $(fish)/aspground.fish $(fish)/aspcheck.fish $(python)/aspenum.py

deb: all
	@packaging/deb.sh

check:
	@$(need_rt)
	@.ci/run

edits:
	@$(need_rt)
	@tests/edits.sh -t -o $(NAMES)

clean:
	rm -rf build crates/*/out

.PHONY: all demo test install uninstall deb check edits clean
