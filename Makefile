# Builds pcalc without proofs, and installs a built one with its man page, the shells' completions, the pages that they name and the
# clients. The gate is .ci/run.
#
#   make                        out/pcalc, by tools/build: not proved
#   make install PREFIX=FOLDER  crates/pcalc/out/pcalc, the proved program, if the gate has built it, otherwise out/pcalc

PREFIX ?= /usr/local
DOC := $(PREFIX)/share/doc/pcalc
SOURCE := $(dir $(lastword $(MAKEFILE_LIST)))
PROVED := crates/pcalc/out/pcalc
UNPROVED := out/pcalc
PROGRAM := $(if $(wildcard $(PROVED)),$(PROVED),$(UNPROVED))
KIND := $(if $(filter $(PROVED),$(PROGRAM)),proved,not proved)

.PHONY: all install
all: $(UNPROVED)

$(UNPROVED): crates.txt tools/build $(wildcard crates/*/src/*.rt)
	tools/build $@

install: $(PROGRAM)
	@echo "$(PROGRAM) is installed: $(KIND)"
	install -d "$(DESTDIR)$(PREFIX)/bin"
	install -m 755 "$(PROGRAM)" "$(DESTDIR)$(PREFIX)/bin/pcalc"
	python3 tools/shell_pages.py "$(PROGRAM)" "$(DESTDIR)$(PREFIX)/share" "$(DOC)"
	install -d "$(DESTDIR)$(DOC)" "$(DESTDIR)$(PREFIX)/lib/python"
	install -m 644 $(addprefix $(SOURCE)docs/,MANUAL.md FORMATS.md OPERATIONS.md) "$(DESTDIR)$(DOC)/"
	install -m 644 $(SOURCE)clients/README.md "$(DESTDIR)$(DOC)/clients.md"
	install -m 644 $(addprefix $(SOURCE)clients/python/,pcalc.py relay.py) "$(DESTDIR)$(PREFIX)/lib/python/"
