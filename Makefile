# `make` lists what it can do. docs/INSTALL.md and CONTRIBUTING.md say more.
#
# It works in the repository and in an unpacked tarball of `make dist`. `build`, `check` and `try` need the kit; these, `test` and `definitions` the
# repository.

PREFIX = /usr/local
DESTDIR =
bindir = $(PREFIX)/bin
mandir = $(PREFIX)/share/man
docdir = $(PREFIX)/share/doc/ssikvd
unitdir = $(PREFIX)/lib/systemd/system
bashdir = $(PREFIX)/share/bash-completion/completions
zshdir = $(PREFIX)/share/zsh/site-functions
fishdir = $(PREFIX)/share/fish/vendor_completions.d

BUILT = crates/ssikvd/out/ssikvd
PROGRAM = $(firstword $(wildcard bin/ssikvd) $(BUILT))
VERSION = $(shell "$(PROGRAM)" --version | cut -d ' ' -f 2)
SYSTEM = linux-x86_64

# What lies in dist/: units, commands (names without a dot), and the rest, which is documentation.
UNITS = $(wildcard dist/*.service dist/*.timer dist/*.socket)
COMMANDS = $(foreach file,$(wildcard dist/ssikvd-*),$(if $(findstring .,$(notdir $(file))),,$(file)))
MANUALS = man/ssikvd.1 man/ssikvd.5 man/ssikvd.7 $(wildcard $(COMMANDS:dist/%=man/%.8))
NOTES = LICENSE NOTICE README.md CHANGELOG.md CONTRIBUTING.md SECURITY.md $(filter-out docs/DEFINITIONS.md docs/CLAUSES.md,$(wildcard docs/*.md)) $(wildcard docs/*.svg docs/pictures/*.svg) \
	$(filter-out $(UNITS) $(COMMANDS),$(wildcard dist/*)) \
	$(sort $(shell find examples clients -type f -not -name .gitignore -not -path '*/__pycache__/*' -not -path '*/out/*' -not -path '*/target/*'))

help:
	@echo 'make build      proves and builds $(BUILT), with the kit'
	@echo 'make check      the gate, with the kit'
	@echo 'make definitions  writes docs/DEFINITIONS.md, every definition behind the promises of docs/PROOFS.md, and docs/CLAUSES.md, every public clause'
	@echo 'make try        runs a script over a store in memory before anything is proved, with the kit'
	@echo 'make test       the quick form of the harness, over the program PROGRAM=$(PROGRAM)'
	@echo 'make install    installs below DESTDIR=$(DESTDIR) PREFIX=$(PREFIX) the program PROGRAM=$(PROGRAM), and all that goes with it'
	@echo 'make uninstall  removes that'
	@echo 'make dist       packs the program and all that goes with it into a tarball, in out/'
	@echo 'make deb        builds the Debian package of that, in out/'
	@echo 'make release    makes both, and out/SHA256SUMS'
	@echo 'make image      builds the image ssikvd:VERSION of that, with $(BUILDER) $(BUILDER_OPTIONS)'

build:
	cd crates/ssikvd && rt run -- --version

check:
	rt ci && harness/run.sh quick

definitions:
	python3 -B harness/reading.py --write
	python3 -B harness/clauses.py --write

try:
	cd crates/ssikvd && rt try -- play < ../../examples/write_skew.play

test: built
	SSIKVD="$$(realpath "$(PROGRAM)")" harness/run.sh quick

built:
	@test -x "$(PROGRAM)" || { echo 'make: there is no program $(PROGRAM): `make build` leaves one, with the kit' >&2; exit 1; }

install: built
	@install -D -m 755 "$(PROGRAM)" "$(DESTDIR)$(bindir)/ssikvd"
	@for file in $(COMMANDS); do install -D -m 755 $$file "$(DESTDIR)$(bindir)/$${file##*/}" || exit; done
	@for file in $(UNITS); do install -D -m 644 $$file "$(DESTDIR)$(unitdir)/$${file##*/}" || exit; done
	@for file in $(MANUALS); do install -D -m 644 $$file "$(DESTDIR)$(mandir)/man$${file##*.}/$${file##*/}" || exit; done
	@for file in $(NOTES); do install -D -m 644 $$file "$(DESTDIR)$(docdir)/$$file" || exit; done
	@install -D -m 644 completions/ssikvd.bash "$(DESTDIR)$(bashdir)/ssikvd"
	@install -D -m 644 completions/_ssikvd "$(DESTDIR)$(zshdir)/_ssikvd"
	@install -D -m 644 completions/ssikvd.fish "$(DESTDIR)$(fishdir)/ssikvd.fish"

uninstall:
	@for file in ssikvd $(COMMANDS); do rm -f "$(DESTDIR)$(bindir)/$${file##*/}"; done
	@for file in $(UNITS); do rm -f "$(DESTDIR)$(unitdir)/$${file##*/}"; done
	@for file in $(MANUALS); do rm -f "$(DESTDIR)$(mandir)/man$${file##*.}/$${file##*/}"; done
	@rm -f "$(DESTDIR)$(bashdir)/ssikvd" "$(DESTDIR)$(zshdir)/_ssikvd" "$(DESTDIR)$(fishdir)/ssikvd.fish"
	@for file in $(NOTES); do rm -f "$(DESTDIR)$(docdir)/$$file"; done
	@if [ -d "$(DESTDIR)$(docdir)" ]; then find "$(DESTDIR)$(docdir)" -depth -type d -empty -delete; fi

# A tarball with the program and all that `make install` installs, and what `make deb` needs. Over the same files it has the same bytes: no time, owner,
# order or mask of this machine is in it. The times are those of SOURCE_DATE_EPOCH.
SOURCE_DATE_EPOCH ?= 0
NAME = ssikvd-$(VERSION)-$(SYSTEM)
DEB = ssikvd_$(subst -,~,$(VERSION))_amd64.deb
PACKAGING = $(sort $(shell find debian -type f -not -path 'debian/ssikvd/*' -not -path 'debian/.debhelper/*' -not -name 'files' -not -name '*.substvars' \
	-not -name '*.log' -not -name 'debhelper-build-stamp'))
PACKED = Makefile Containerfile $(NOTES) $(UNITS) $(COMMANDS) $(MANUALS) $(PACKAGING) completions/ssikvd.bash completions/_ssikvd completions/ssikvd.fish

dist: built
	@rm -rf out/dist && mkdir -p out/dist/$(NAME)
	@install -D -m 755 "$(PROGRAM)" out/dist/$(NAME)/bin/ssikvd
	@cp -p --parents $(PACKED) out/dist/$(NAME)
	@cd out/dist/$(NAME) && sha256sum bin/ssikvd > SHA256
	@cd out/dist && tar --create --format=gnu --sort=name --mtime=@$(SOURCE_DATE_EPOCH) --owner=0 --group=0 --numeric-owner \
		--mode=u=rwX,go=rX $(NAME) | gzip -n -9 > ../$(NAME).tar.gz
	@cd out && sha256sum $(NAME).tar.gz | tee $(NAME).tar.gz.sha256
	@rm -rf out/dist

# The package is built of what the tarball holds; its times are those of debian/changelog.
deb: dist
	@rm -rf out/deb && mkdir -p out/deb && tar -xzf out/$(NAME).tar.gz -C out/deb
	@cd out/deb/$(NAME) && umask 022 && env -u SOURCE_DATE_EPOCH dpkg-buildpackage -us -uc -b > ../log 2>&1 || { tail ../log >&2; exit 1; }
	@mv out/deb/$(DEB) out/ && rm -rf out/deb
	@cd out && sha256sum $(DEB)

release: built
	@case '$(VERSION)' in *-*) echo 'make: the program says that it is $(VERSION), which is no release' >&2; exit 1 ;; esac
	@test ! -e .git || test "$$(git describe --tags --dirty --match 'v$(VERSION)' 2>/dev/null)" = 'v$(VERSION)' || \
		{ echo 'make: this is not the commit with the tag v$(VERSION), or it has changes' >&2; exit 1; }
	@$(MAKE) --no-print-directory dist deb
	@cd out && sha256sum $(NAME).tar.gz $(DEB) > SHA256SUMS

# An image of what the tarball holds. BASE names another image of Debian 12 or later.
BUILDER = buildah
BASE = docker.io/library/debian:12-slim
BUILDER_OPTIONS =

image: dist
	@rm -rf out/image && mkdir -p out/image && tar -xzf out/$(NAME).tar.gz -C out/image
	@$(BUILDER) build $(BUILDER_OPTIONS) --build-arg BASE=$(BASE) -f out/image/$(NAME)/Containerfile -t ssikvd:$(VERSION) out/image/$(NAME)
	@rm -rf out/image

.PHONY: help build check definitions try test built install uninstall dist deb release image
