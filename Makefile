# What docs/API.md describes, by name. `make` and `make lib` need the kit (`rt`); `make install` takes what is built, and builds only what is missing.
#   make            the programs, target/bin/register, convert and batch
#   make lib        the library, target/staticlib/libkodarfi.a, and target/lib/libkodarfi.so, the shared one
#   make archive    target/staticlib/libkodarfi.a alone
#   make check      the gate
#   make install    all of it under DESTDIR/PREFIX; make uninstall takes it away again
SHELL := /bin/bash
PREFIX ?= /usr/local
DESTDIR ?=
export PREFIX DESTDIR
VERSION := $(shell cat VERSION)
SONAME := libkodarfi.so.$(firstword $(subst ., ,$(VERSION)))
PROVED := target/bin/register target/bin/convert
PROGRAMS := $(PROVED) target/bin/batch
ARCHIVE := target/staticlib/libkodarfi.a
SHARED := target/lib/libkodarfi.so.$(VERSION)
# the functions by which rt proves and builds, with a temporary folder in memory, where there is room for one
RT := here=$$(pwd); . scripts/command_line.sh; memory=$$(memory_folder 1); trap 'rm -rf "$$memory"' EXIT; from=$$(commit); export TMPDIR=$${memory:-$${TMPDIR:-/tmp}};

.PHONY: programs lib archive check install uninstall
.DELETE_ON_ERROR:
.NOTPARALLEL:

programs:
	@$(RT) for name in $(notdir $(PROVED)); do prove_program $$name && note_version target/bin/$$name "$$from" || exit; done
	@$(RT) prove_library
	@$(MAKE) --no-print-directory -W $(ARCHIVE) target/bin/batch

lib: archive
	@$(MAKE) --no-print-directory $(SHARED)

archive:
	@$(RT) prove_library

check:
	bash .ci/run

install: $(PROGRAMS) $(ARCHIVE) $(SHARED)
	@scripts/install "$$DESTDIR" "$$PREFIX"

uninstall:
	@scripts/install --remove "$$DESTDIR" "$$PREFIX"

$(PROVED):
	@$(MAKE) --no-print-directory programs

$(ARCHIVE):
	@$(MAKE) --no-print-directory archive

target/bin/batch: $(wildcard programs/batch/* include/*.h) $(ARCHIVE)
	@me=batch here=$$(pwd); . scripts/command_line.sh; beside=(programs/batch include); link_batch $@ && note_version $@ "$$(commit)"

$(SHARED): $(ARCHIVE) VERSION
	mkdir -p $(@D)
	cc -shared -Wl,-soname,$(SONAME) -Wl,--whole-archive $(ARCHIVE) -Wl,--no-whole-archive -o $@
	ln -sf $(@F) $(@D)/$(SONAME)
	ln -sf $(SONAME) $(@D)/libkodarfi.so
