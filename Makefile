# make            proves and builds the program
# make install PREFIX=/usr/local      the program, its tools, man pages, completion for bash and zsh, page, front, units of systemd, schemas, docs
# make uninstall PREFIX=/usr/local    takes them out again
# make dist       out/office-VERSION.tar.gz, which has all that install puts under PREFIX
# make deb        out/office_VERSION_ARCHITECTURE.deb, the same as a package of Debian
# make test       the gate
# make check      the scripts beside the gate that need no network, and what each showed
# With PROGRAM=FILE a program that is built already is taken, and nothing is proved.
PREFIX ?= /usr/local
BUILT = crates/cli/out/cli
PROGRAM = $(BUILT)
# The one place of the version.
VERSION := $(shell sed -n 's/^const VERSION: &str = "\(.*\)";$$/\1/p' crates/cli/src/subcommands.rt)
TO = $(DESTDIR)$(PREFIX)
TOOLS = office-check office-door office-export office-feed office-git office-hook office-import office-log office-memory \
	office-snapshot office-stream office-suggest office-upload
COMPLETION = share/bash-completion/completions/office share/zsh/site-functions/_office
MAN = $(wildcard share/man/man1/*.1)
OWN = share/office
DOC = share/doc/office
UNITS = lib/systemd/system
FOLDERS = lib/tmpfiles.d
# Folders of share/ that lie under $(OWN) as they are, where they are there.
WHOLE = tools web front schema openapi streams

.PHONY: all install uninstall dist deb test check

all:
	./office --version

install: $(if $(filter $(BUILT),$(PROGRAM)),all)
	install -D -m 755 "$(PROGRAM)" "$(TO)/bin/office"
	for it in $(MAN) $(COMPLETION); do install -D -m 644 $$it "$(TO)/$$it" || exit 1; done
	for it in $(WHOLE); do tools/install_folder share/$$it "$(TO)/$(OWN)/$$it" || exit 1; done
	for it in $(TOOLS); do ln -sf ../$(OWN)/tools/$$it "$(TO)/bin/$$it" || exit 1; done
	tools/install_folder share/systemd "$(TO)/$(UNITS)"
	tools/install_folder share/tmpfiles.d "$(TO)/$(FOLDERS)"
	tools/install_folder docs "$(TO)/$(DOC)/docs"
	for it in $(wildcard README.md CHANGELOG.md LICENSE); do install -m 644 $$it "$(TO)/$(DOC)/$$it" || exit 1; done
	for it in "$(TO)/$(OWN)" "$(TO)/$(DOC)"; do grep -rlZ '/usr/local/' "$$it" | xargs -0 -r sed -i 's|/usr/local/|$(PREFIX)/|g' || exit 1; done

uninstall:
	for it in bin/office $(TOOLS:%=bin/%) $(MAN) $(COMPLETION); do rm -f "$(TO)/$$it" || exit 1; done
	rm -rf "$(TO)/$(OWN)" "$(TO)/$(DOC)"
	for it in $(notdir $(wildcard share/systemd/*)); do rm -rf "$(TO)/$(UNITS)/$$it" || exit 1; done
	for it in $(notdir $(wildcard share/tmpfiles.d/*)); do rm -f "$(TO)/$(FOLDERS)/$$it" || exit 1; done

dist: $(if $(filter $(BUILT),$(PROGRAM)),all)
	tools/package dist "$(PROGRAM)" $(VERSION)

deb: $(if $(filter $(BUILT),$(PROGRAM)),all)
	tools/package deb "$(PROGRAM)" $(VERSION)

test:
	rt ci

check: $(if $(filter $(BUILT),$(PROGRAM)),all)
	tools/check "$(PROGRAM)"
