# Proves and builds the program, installs it, and checks the whole repository. `make quick` builds it with no proof, and `make test` runs all cases with none.
PREFIX ?= /usr/local

# What the program is called where it is installed: another name leaves the system's mandoc as it is.
NAME ?= mandoc
$(if $(strip $(NAME)),,$(error NAME is empty))

# All that the program is made of; a folder changes with the names of its files.
SOURCES := crates.txt $(shell find crates/*/src crates/*/specs crates/*/proofs 2> /dev/null)

# The program that is installed and packed; the version and, of a package of Debian, who answers for it.
PROGRAM ?= mandoc
VERSION := $(shell sed -n 's/^- [*][*]\([0-9.]*\)[*][*].*/\1/p' CHANGELOG.md | head -n 1)
MAINTAINER ?= nobody <nobody@localhost>

.PHONY: all quick book test check edits refusals install install-quick uninstall dist deb clean

all: mandoc

# The program, proved.
mandoc: $(SOURCES) tools/build tools/rooms.py
	@tools/build $@

# The program in about two minutes, with no proof of anything: to see a page, and to try a change before it is proved.
quick: mandoc-unproved
	@echo "NOTHING of ./mandoc-unproved is proved: \`make\` proves the program, and builds ./mandoc."

mandoc-unproved: $(SOURCES) tools/quick
	@tools/quick $@

# The definitions as linked pages, to be read in a browser: book/index.html.
book:
	@tools/book $@

# All cases, in about five minutes: of pages, layers and the program, with no proof of anything. Its last line is 'N passed, M failed'.
test:
	@tools/test

# The whole gate: what the documents say of the code, all proofs, edits, tests and runs, and the cases of the program that was proved. Its last
# lines say how many of each kind passed; the very last one is 'N passed, M failed'.
check:
	@tools/kit
	@docs/check
	@tools/gate

# The edits that the gate leaves out and of which no verdict is kept that still holds, of the crates that CRATES names, or of all: a clause must refuse each.
edits:
	@tools/edits $(CRATES)

# Refuses each allocation in turn, to pages that are fed line by line and to the program: those that the gate built, or else it builds them.
refusals:
	@bench/run refusals
	@bench/run refusals_program

BIN := $(DESTDIR)$(PREFIX)/bin
SHARE := $(DESTDIR)$(PREFIX)/share
RUN := $(SHARE)/$(NAME)
DOC := $(SHARE)/doc/$(NAME)
PAGES := $(SHARE)/man/man1
BASH := $(SHARE)/bash-completion/completions/hman
ZSH := $(SHARE)/zsh/site-functions/_hman
FISH := $(SHARE)/fish/vendor_completions.d/hman.fish

# What is said of a program that `make quick` built.
NOTHING := NOTHING of $(PREFIX)/bin/$(NAME) is proved: \`make install\` proves the program, and installs it.
UNPROVED := $(if $(filter %-unproved,$(PROGRAM)),$(NOTHING))

# A manual calls the program by the name that it has here.
CAPITALS := $(shell printf %s '$(NAME)' | tr a-z A-Z)
NAMED := sed -e 's/^\.Dt MANDOC/.Dt $(CAPITALS)/' -e 's/^\.Nm mandoc/.Nm $(NAME)/' -e 's/^\.Xr mandoc 1/.Xr $(NAME) 1/' \
	-e 's/^\.Xr mandoc-\([a-z]*whatis\) 1/.Xr $(NAME)-\1 1/' -e 's|share/mandoc |share/$(NAME) |'
REFERRED := sed -e 's/^\.Xr mandoc 1/.Xr $(NAME) 1/'

# What runs is in share/NAME, with links in bin, and nothing of it in share/doc. The pages of the program's commands have its name in front, so that they
# hurt no other makewhatis and whatis. The files of contrib get the name and the place of what is installed; a README has no links to what isn't there.
# share/doc/NAME/UNPROVED says that a program is not proved, also in an archive and a package.
install: $(PROGRAM)
	rm -f $(DOC)/UNPROVED
	install -D -m 755 $(PROGRAM) $(BIN)/$(NAME)
	install -d $(PAGES) $(RUN) $(DOC)/contrib
	$(NAMED) man/mandoc.1 > $(PAGES)/$(NAME).1
	$(NAMED) man/makewhatis.1 > $(PAGES)/$(NAME)-makewhatis.1
	$(NAMED) man/whatis.1 > $(PAGES)/$(NAME)-whatis.1
	for page in hman mandoc-lint mandoc-lsp; do $(REFERRED) man/$$page.1 > $(PAGES)/$$page.1 || exit; done
	install -m 644 -t $(DOC) CHANGELOG.md LICENSE
	for text in README.md contrib/README.md contrib/ci/README.md contrib/language-server/README.md; do \
		mkdir -p $$(dirname $(DOC)/$$text) && sed -e 's,\[\([^]]*\)\](docs/[^)]*),\1,g' -e 's,\[\([^]]*\)\](man/[^)]*),\1,g' $$text > $(DOC)/$$text || exit; done
	cp -R contrib/hman contrib/whatis-tree contrib/filters contrib/man-db contrib/ci contrib/language-server contrib/vim contrib/emacs $(RUN)/
	find $(RUN) \( -name README.md -o -name __pycache__ \) -prune -exec rm -rf {} +
	sed -i 's|{MANDOC:-mandoc}|{MANDOC:-$$here/../../bin/$(NAME)}|' $(RUN)/hman $(RUN)/whatis-tree
	sed -i 's|{MANDOC:-mandoc}|{MANDOC:-$$here/../../../bin/$(NAME)}|' $(RUN)/ci/mandoc-lint $(RUN)/man-db/nroff
	find $(RUN) -type f -exec sed -i -e 's|/usr/local/share/mandoc/|$(PREFIX)/share/$(NAME)/|' \
		-e 's|"MANDOC", "mandoc"|"MANDOC", f"{CONTRIB}/../../bin/$(NAME)"|' \
		-e 's|(defvar mandoc-program "mandoc"|(defvar mandoc-program "$(NAME)"|' -e "s|'mandoc_program', 'mandoc'|'mandoc_program', '$(NAME)'|" {} +
	ln -sf ../share/$(NAME)/hman $(BIN)/hman
	ln -sf ../share/$(NAME)/ci/mandoc-lint $(BIN)/mandoc-lint
	ln -sf ../share/$(NAME)/language-server/mandoc-lsp $(BIN)/mandoc-lsp
	install -D -m 644 contrib/completion/hman.bash $(BASH)
	install -D -m 644 contrib/completion/_hman $(ZSH)
	install -D -m 644 contrib/completion/hman.fish $(FISH)
	$(if $(UNPROVED),@echo "$(UNPROVED)" | tee $(DOC)/UNPROVED)

# The same with the program that `make quick` builds.
install-quick: mandoc-unproved
	@$(MAKE) --no-print-directory install PROGRAM=mandoc-unproved

uninstall:
	rm -f $(BIN)/$(NAME) $(BIN)/hman $(BIN)/mandoc-lint $(BIN)/mandoc-lsp $(BASH) $(ZSH) $(FISH)
	rm -f $(PAGES)/$(NAME).1 $(PAGES)/$(NAME)-makewhatis.1 $(PAGES)/$(NAME)-whatis.1 $(PAGES)/hman.1 $(PAGES)/mandoc-lint.1 $(PAGES)/mandoc-lsp.1
	rm -rf $(DOC) $(RUN)

# What is installed, as an archive that is unpacked anywhere: bin/hman and the others find what they need beside them.
PACKAGE := $(NAME)-$(VERSION)-linux-x86_64
dist: $(PROGRAM)
	@! LC_ALL=C readelf -lW $(PROGRAM) | grep -q INTERP || echo "$(PROGRAM) is not static: it needs the C library where the archive is unpacked." >&2
	rm -rf out/$(PACKAGE)
	@$(MAKE) --no-print-directory install DESTDIR=$(CURDIR)/out/ PREFIX=$(PACKAGE)
	tar -C out --owner=0 --group=0 --sort=name -czf $(PACKAGE).tar.gz $(PACKAGE)
	rm -rf out/$(PACKAGE)

# A package of Debian; NAME=vmandoc leaves the package mandoc beside it.
deb: $(PROGRAM)
	rm -rf out/deb
	@$(MAKE) --no-print-directory install DESTDIR=$(CURDIR)/out/deb PREFIX=/usr
	strip out/deb/usr/bin/$(NAME)
	gzip -9n out/deb/usr/share/man/man1/*.1
	mv out/deb/usr/share/doc/$(NAME)/LICENSE out/deb/usr/share/doc/$(NAME)/copyright
	printf '$(NAME) ($(VERSION)) unstable; urgency=medium\n\n  * CHANGELOG.md says what changed.\n\n -- $(MAINTAINER)  %s\n' \
		"$$(LC_ALL=C date -R -r CHANGELOG.md)" | gzip -9n > out/deb/usr/share/doc/$(NAME)/changelog.gz
	mkdir out/deb/DEBIAN
	(cd out/deb && find usr -type f -exec md5sum {} + > DEBIAN/md5sums)
	sed -e 's/@NAME@/$(NAME)/' -e 's/@VERSION@/$(VERSION)/' -e 's/@MAINTAINER@/$(MAINTAINER)/' \
		$(if $(UNPROVED),-e 's/whose rows are proved/of which nothing is proved/') contrib/packaging/control > out/deb/DEBIAN/control
	echo "Installed-Size: $$(du -ks out/deb/usr | cut -f 1)" >> out/deb/DEBIAN/control
	dpkg-deb --root-owner-group --build out/deb $(NAME)_$(VERSION)_amd64.deb
	rm -rf out/deb

clean:
	rm -rf crates/*/out out mandoc mandoc-unproved book
