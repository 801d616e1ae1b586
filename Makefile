# What a user of the repository runs. Proving wants the kit's command rt on the path; FST=path names a program that is
# there, and then nothing is proved.
PREFIX ?= /usr/local
# No rule but those below: a program that FST names is never linked anew from an object file beside it.
MAKEFLAGS += --no-builtin-rules
# Where install-shim puts OpenFst's names: a folder of their own, so that OpenFst's tools stay in reach beside them.
SHIM ?= $(PREFIX)/lib/jazvurd/openfst
FST ?= out/fst
# How many crates are proved side by side: each takes a processor and 1 to 4 GB.
JOBS ?= $(shell nproc)

VERSION := $(shell cat VERSION)
# The time that packed files get: that of the commit, so that the same commit gives the same bytes.
SOURCE_DATE_EPOCH ?= $(or $(shell git log -1 --format=%ct 2> /dev/null),0)
ARCHIVE = jazvurd-$(VERSION)-x86_64-linux

LIBRARY = $(DESTDIR)$(PREFIX)/lib/jazvurd
SHARE = $(DESTDIR)$(PREFIX)/share
DOC = $(SHARE)/doc/jazvurd
BASH_COMPLETION = $(SHARE)/bash-completion/completions
ZSH_COMPLETION ?= $(SHARE)/zsh/site-functions
FISH_COMPLETION = $(SHARE)/fish/vendor_completions.d
SCRIPTS := $(notdir $(wildcard scripts/fst-*))
COMMANDS := arcsort closure compile compose concat connect determinize difference encode equivalent info intersect invert minimize \
  print project prune push relabel replace reverse rmepsilon shortestdistance shortestpath union
# What OpenFst has besides: the shim turns it into other commands, or leads it through OpenFst's own tool.
OTHERS := convert disambiguate draw epsnormalize equal isomorphic map printstrings randgen reweight symbols synchronize \
  topsort
SOURCES := crates.txt HANDLES $(shell find crates -name out -prune -o -type f \( -name '*.rt' -o -name '*.antt' \) -print)

.PHONY: all help try example test bench docs install uninstall install-shim dist deb wheel always

# What a target takes and prints is said at once.
SAYS_all := every proof, then the program, out/fst. About three quarters of an hour from nothing on four processors, minutes after a change.
SAYS_help := the targets, a line for each.
SAYS_try := compiles a first machine with the program as it stands, unproved. One to two minutes; prints the bytes of the machine.
SAYS_example := number words to digits and back. A second, once there is a program; prints a line for each.
SAYS_test := the gate: every proof, every edit that the prover must refuse, every test, then the checks. One to two hours from nothing on four processors, minutes after a change; prints a line for each, and "N passed, M failed".
SAYS_bench := each command beside OpenFst's tool of that name. About a quarter of an hour; prints tables of seconds and MiB, and of keys that a stranger chose.
SAYS_docs := docs/PROMISES.md and the table of docs/MAP.md, from the sources. A second; prints which of the two it wrote anew.
SAYS_install := the program, its scripts, manual pages and completions to $(DESTDIR)$(PREFIX). A second; prints nothing.
SAYS_uninstall := takes away what make install put to $(DESTDIR)$(PREFIX). A second; prints nothing.
SAYS_install-shim := OpenFst's names to $(DESTDIR)$(SHIM), each of them the command of fst. A second; prints nothing.
SAYS_dist := what make install installs, in one archive, with a program that needs no library, SHA256SUMS and a list of what is inside. Seconds; prints their names.
SAYS_deb := a Debian package of it. Seconds; prints its name.
SAYS_wheel := the Python module with the program inside, for pip. Seconds; prints its name.
TARGETS := all help try example test bench docs install uninstall install-shim dist deb wheel
GOALS := $(or $(MAKECMDGOALS),all)
ifeq ($(MAKELEVEL),0)
  $(foreach goal,$(GOALS),$(if $(filter-out all help,$(goal)),$(if $(SAYS_$(goal)),$(info make $(goal): $(SAYS_$(goal))))))
endif
ifneq ($(filter-out docs help install-shim uninstall,$(GOALS)),)
  ifneq ($(FST),out/fst)
    $(if $(wildcard $(FST)),,$(error FST=$(FST): there is no such program))
  else ifeq ($(wildcard $(FST)),)
    $(if $(shell command -v rt 2> /dev/null),,$(error rt is not on the path: it proves and builds the program. FST=path uses one that is there))
  endif
endif

all: $(FST)

help:
	@:$(foreach target,$(TARGETS),$(info make $(target): $(SAYS_$(target))))
	@echo 'FST=/path/to/fst takes a program that is there, and proves nothing. PREFIX=/usr/local and DESTDIR= say where to install.'

# The proved program. From nothing each crate is proved that it stands on; after a change, what has changed. The crates of
# tests are proved beside them, and do not decide.
out/fst: $(SOURCES)
	@echo "First the program is proved and built: about three quarters of an hour from nothing on four processors, an hour and a quarter on two, minutes after a change."
	@mkdir -p out && date +%s > out/began
	-rt all check --jobs $(JOBS)
	cd crates/fst && rt run -- compile - - < stdin > /dev/null
	cp crates/fst/out/fst out/fst
	@echo "Proved and built in $$(( ($$(date +%s) - $$(cat out/began) + 59) / 60 )) minutes: out/fst"

try:
	cd crates/fst && rt try -- compile - - < stdin | od -A d -t x1

# The main job: examples/numbers/run says how it is done.
example: $(FST)
	@FST=$(abspath $(FST)) examples/numbers/run

# The gate, and the repository's own checks.
test:
	bash .ci/run

# Side by side with OpenFst's tools in one run (Debian's package libfst-tools); bench/README.md says more.
bench: $(FST)
	python3 bench/side_by_side.py --fst $(FST)

# The pages that are made from the sources, which .ci/checks/promises compares with them.
docs:
	@python3 .ci/promises.py

install: $(FST)
	@install -d $(DESTDIR)$(PREFIX)/bin $(LIBRARY)/jazvurd $(SHARE)/man/man1 $(DOC)/docs $(DOC)/bench $(BASH_COMPLETION) $(ZSH_COMPLETION) $(FISH_COMPLETION)
	@install -m 755 $(FST) $(DESTDIR)$(PREFIX)/bin/fst
	@install -m 755 $(addprefix scripts/,$(SCRIPTS)) $(LIBRARY)
	@install -m 644 scripts/converting.py $(LIBRARY)
	@install -m 644 scripts/jazvurd/__init__.py scripts/jazvurd/py.typed $(LIBRARY)/jazvurd
	@for script in $(SCRIPTS); do ln -sf ../lib/jazvurd/$$script $(DESTDIR)$(PREFIX)/bin/$$script; done
	@install -m 644 man/*.1 $(SHARE)/man/man1
	@install -m 644 README.md LICENSE VERSION CHANGELOG.md SECURITY.md CONTRIBUTING.md $(DOC)
	@install -m 644 docs/*.md docs/*.svg $(DOC)/docs
	@install -m 644 bench/README.md $(DOC)/bench
	@for folder in examples/*; do \
	  install -d $(DOC)/$$folder; \
	  for file in $$folder/*; do if [ -x $$file ]; then mode=755; else mode=644; fi; install -m $$mode $$file $(DOC)/$$folder; done; \
	done
	@install -m 644 completions/fst.bash $(BASH_COMPLETION)/fst
	@install -m 644 completions/_fst $(ZSH_COMPLETION)/_fst
	@install -m 644 completions/fst.fish $(FISH_COMPLETION)/fst.fish
	@install -m 644 completions/fst-scripts.bash $(BASH_COMPLETION)/fst-scripts
	@install -m 644 completions/_fst_scripts $(ZSH_COMPLETION)/_fst_scripts
	@install -m 644 completions/fst-scripts.fish $(FISH_COMPLETION)/fst-scripts.fish
	@for script in $(SCRIPTS); do ln -sf fst-scripts $(BASH_COMPLETION)/$$script; ln -sf fst-scripts.fish $(FISH_COMPLETION)/$$script.fish; done

uninstall:
	@rm -f $(DESTDIR)$(PREFIX)/bin/fst $(addprefix $(DESTDIR)$(PREFIX)/bin/,$(SCRIPTS)) \
	  $(addprefix $(SHARE)/man/man1/,$(notdir $(wildcard man/*.1))) $(BASH_COMPLETION)/fst $(ZSH_COMPLETION)/_fst $(FISH_COMPLETION)/fst.fish \
	  $(addprefix $(BASH_COMPLETION)/,fst-scripts $(SCRIPTS)) $(ZSH_COMPLETION)/_fst_scripts \
	  $(addprefix $(FISH_COMPLETION)/,$(addsuffix .fish,fst-scripts $(SCRIPTS)))
	@rm -rf $(LIBRARY) $(DOC)

install-shim:
	@install -d $(DESTDIR)$(SHIM)
	@install -m 755 scripts/openfst-shim $(DESTDIR)$(SHIM)/openfst-shim
	@for command in $(COMMANDS) $(OTHERS); do ln -sf openfst-shim $(DESTDIR)$(SHIM)/fst$$command; done

# The program of the archive is what the prover built, linked once more with the C library inside, so that it needs none of
# the system. Another program that FST names is packed as it is.
ifneq ($(FST),out/packed/fst)
out/packed/fst: $(FST) always
	@rm -rf out/packed && mkdir -p out/packed
ifneq ($(filter out/fst crates/fst/out/fst,$(FST)),)
	@kit=$$(dirname "$$(dirname "$$(readlink -f "$$(command -v rt)")")") && \
	  $(CC) -static -s -o $@ crates/fst/out/fst.o "$$kit/c/libos_c.a" "$$kit/c/liblibc_c.a"
else
	@cp $(FST) $@ && strip $@
	@! ldd $@ > /dev/null 2>&1 || echo "$(FST) needs libraries of the system, which ldd lists: they are not in what is packed" >&2
endif
endif
always:

# The names, owners, times and rights of the files do not depend on who packs them, when, and where.
dist: out/packed/fst
	@rm -rf out/dist && mkdir -p out/dist
	@umask 022 && $(MAKE) -s install FST=out/packed/fst DESTDIR=$(CURDIR)/out/dist PREFIX=/$(ARCHIVE)
	@kit=$$(grep -o 'rattle-kit-[^`]*' README.md | head -1) && \
	  python3 packaging/sbom.py out/dist/$(ARCHIVE) $(VERSION) $(SOURCE_DATE_EPOCH) "$$kit" > out/$(ARCHIVE).spdx.json
	@tar -C out/dist --sort=name --format=ustar --mtime=@$(SOURCE_DATE_EPOCH) --mode=go-w --owner=0 --group=0 --numeric-owner -cf - $(ARCHIVE) | gzip -9n > out/$(ARCHIVE).tar.gz
	@rm -rf out/dist
	@cd out && sha256sum $(ARCHIVE).tar.gz $(ARCHIVE).spdx.json > SHA256SUMS
	@echo out/$(ARCHIVE).tar.gz out/$(ARCHIVE).spdx.json out/SHA256SUMS

deb: out/packed/fst
	@rm -rf out/deb && mkdir -p out/deb
	@umask 022 && $(MAKE) -s install FST=out/packed/fst DESTDIR=$(CURDIR)/out/deb PREFIX=/usr ZSH_COMPLETION=$(CURDIR)/out/deb/usr/share/zsh/vendor-completions
	@ldd out/packed/fst > /dev/null 2>&1 || { mkdir -p out/deb/usr/share/lintian/overrides && \
	  echo 'jazvurd: statically-linked-binary [usr/bin/fst]' > out/deb/usr/share/lintian/overrides/jazvurd; }
	@umask 022 && packaging/deb out/deb $(VERSION) $(SOURCE_DATE_EPOCH) out/jazvurd_$(VERSION)_amd64.deb
	@rm -rf out/deb
	@echo out/jazvurd_$(VERSION)_amd64.deb

wheel: out/packed/fst
	@python3 packaging/wheel.py out/packed/fst $(VERSION) $(SOURCE_DATE_EPOCH) out
