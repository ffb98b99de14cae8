# make try       runs the stored example by an unproved build, compares what it writes, and leaves the build as
#                out/credaudit-unproved of the crate: it checks itself, so it is slower, and nothing of it is proved
# make           proves and builds the program, runs its stored example, compares what it writes, and stamps the program
#                (docs/STAMPS.md). Crates that don't stand on each other are proved side by side: JOBS=N at
#                once, else as many as there are processors. What is proved already isn't proved again
# make test      the gate: the tests of the commands in tools/, every proof, every must-fail edit, every test and the
#                program's stored runs
# make install   puts the built program, the commands around it, their pages, completion, documents and examples below
#                $(DESTDIR)$(PREFIX), and tells whether the program is proved, and of this tree. PROGRAM=FILE takes another
# make uninstall takes away what make install put there
# make deb       makes Debian's package of the built program and all of that, in build/. MAINTAINER="NAME <ADDRESS>" and
#                HOMEPAGE=URL say whose it is
# make dist      makes a tarball of the sources and the built program, in build/
# make clean     removes what was proved and built
#
# Needs rt, the command of the kit that the README names, in the PATH.

PREFIX ?= /usr/local
CRATE := crates/credaudit
PROGRAM := $(CRATE)/out/credaudit
# The commands around the program: their packages lie below lib, where they find them.
COMMANDS := $(wildcard tools/commands/src/credaudit-* tools/checker/src/credaudit-*)
PACKAGES := tools/commands/src/credaudit_tools tools/checker/src/credaudit_check
LIBRARY := $(PREFIX)/lib/credaudit
SHARE := $(PREFIX)/share
DOCUMENTS := $(SHARE)/doc/credaudit
COMPLETIONS := $(SHARE)/bash-completion/completions
FISH_COMPLETIONS := $(SHARE)/fish/vendor_completions.d
ZSH_COMPLETIONS ?= $(SHARE)/zsh/site-functions
# Whose the package for Debian is. Nobody's, where it isn't said.
MAINTAINER ?=
HOMEPAGE ?=
# The words of the stored example, its files below data/.
EXAMPLE := $(foreach word,$(shell cat $(CRATE)/args),$(if $(wildcard $(CRATE)/data/$(word)),data/$(word),$(word)))

.PHONY: all try test install uninstall deb dist clean

all:
	tools/make/prove.py $(if $(JOBS),--jobs $(JOBS)) $(EXAMPLE)
	cd $(CRATE) && out/credaudit $(EXAMPLE) | diff stdout -
	@echo "built: $(PROGRAM)"

try:
	tools/make/try_build.py $(EXAMPLE)

test:
	.ci/run

install:
	@test -x $(PROGRAM) || { echo "$(PROGRAM) isn't built: run make first" >&2; exit 1; }
	install -d $(DESTDIR)$(PREFIX)/bin $(DESTDIR)$(LIBRARY) $(DESTDIR)$(DOCUMENTS)/docs
	install -d $(DESTDIR)$(SHARE)/man/man1 $(DESTDIR)$(SHARE)/man/man5
	install -d $(DESTDIR)$(COMPLETIONS) $(DESTDIR)$(FISH_COMPLETIONS) $(DESTDIR)$(ZSH_COMPLETIONS)
	install -m 755 $(PROGRAM) $(DESTDIR)$(PREFIX)/bin/credaudit
	for package in $(PACKAGES); do \
	  name=$${package##*/} && for folder in . $$(cd $$package && find . -mindepth 1 -type d ! -name '__*'); do \
	    install -d $(DESTDIR)$(LIBRARY)/$$name/$$folder && \
	    install -m 644 $$package/$$folder/*.py $(DESTDIR)$(LIBRARY)/$$name/$$folder || exit; \
	  done || exit; \
	done
	install -m 755 $(COMMANDS) $(DESTDIR)$(LIBRARY)
	ln -sf $(addprefix ../lib/credaudit/,$(notdir $(COMMANDS))) $(DESTDIR)$(PREFIX)/bin
	install -m 644 man/*.1 $(DESTDIR)$(SHARE)/man/man1
	install -m 644 man/*.5 $(DESTDIR)$(SHARE)/man/man5
	install -m 644 completion/credaudit $(DESTDIR)$(COMPLETIONS)/credaudit
	install -m 644 completion/credaudit.fish $(DESTDIR)$(FISH_COMPLETIONS)/credaudit.fish
	for name in $(notdir $(COMMANDS)); do \
	  ln -sf credaudit $(DESTDIR)$(COMPLETIONS)/$$name && \
	  ln -sf credaudit.fish $(DESTDIR)$(FISH_COMPLETIONS)/$$name.fish || exit; \
	done
	install -m 644 completion/_credaudit $(DESTDIR)$(ZSH_COMPLETIONS)/_credaudit
	install -m 644 README.md CHANGELOG.md CONTRIBUTING.md SECURITY.md LICENSE LICENSE-* $(DESTDIR)$(DOCUMENTS)
	install -m 644 docs/*.md docs/*.svg $(DESTDIR)$(DOCUMENTS)/docs
	cp -R examples $(DESTDIR)$(DOCUMENTS)
	@PYTHONDONTWRITEBYTECODE=1 tools/make/install_stamps.py $(PROGRAM) $(DESTDIR)$(PREFIX)/bin/credaudit $(DESTDIR)$(LIBRARY)

uninstall:
	rm -f $(DESTDIR)$(PREFIX)/bin/credaudit $(addprefix $(DESTDIR)$(PREFIX)/bin/,$(notdir $(COMMANDS)))
	rm -f $(addprefix $(DESTDIR)$(SHARE)/man/man1/,$(notdir $(wildcard man/*.1)))
	rm -f $(addprefix $(DESTDIR)$(SHARE)/man/man5/,$(notdir $(wildcard man/*.5)))
	rm -f $(addprefix $(DESTDIR)$(COMPLETIONS)/,credaudit $(notdir $(COMMANDS)))
	rm -f $(addprefix $(DESTDIR)$(FISH_COMPLETIONS)/,$(addsuffix .fish,credaudit $(notdir $(COMMANDS))))
	rm -f $(DESTDIR)$(ZSH_COMPLETIONS)/_credaudit
	rm -rf $(DESTDIR)$(LIBRARY) $(DESTDIR)$(DOCUMENTS)

deb:
	tools/release/deb.py $(if $(MAINTAINER),--maintainer "$(MAINTAINER)") --homepage "$(HOMEPAGE)" $(PROGRAM)

dist:
	tools/release/dist.py $(PROGRAM)

clean:
	rm -rf crates/*/out build
