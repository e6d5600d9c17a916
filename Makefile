# make install: the programs jnl and jnlfs, their manuals, their completions for bash, tools/backup by
# the name jnl-backup, and the client in C, into PREFIX. make install-program: all but the client,
# which needs no C compiler. JNL and JNLFS are the built programs; jnlfs is installed where it is
# built. MANUAL is a folder that has the manuals and the completions; without one they are made from
# the programs' own help, which needs Python 3.
PREFIX ?= /usr/local
JNL ?= $(firstword $(wildcard bin/jnl crates/jnl/out/jnl))
JNLFS ?= $(firstword $(wildcard bin/jnlfs crates/jnlfs/out/jnlfs))
MANUAL ?= $(wildcard manual)
INTO = $(DESTDIR)$(PREFIX)
MAN = $(INTO)/share/man/man1
COMPLETIONS = $(INTO)/share/bash-completion/completions

# Installs the program $(2) by the name $(1), its manual and its completions.
define install_one
install -m 755 $(2) $(INTO)/bin/$(1)
set -e; room=; from="$(MANUAL)"; \
[ -n "$$from" ] || { from=$$(mktemp -d); room=$$from; tools/write-manual $(1) $(2) $$from; }; \
install -m 644 $$from/$(1).1 $(MAN); \
install -m 644 $$from/$(1).bash $(COMPLETIONS)/$(1); \
[ -z "$$room" ] || rm -r $$room
endef

install: install-program
	$(MAKE) -C clients/c install PREFIX=$(PREFIX) DESTDIR=$(DESTDIR)

install-program:
	@[ -x "$(JNL)" ] || { echo "make: there is no built jnl: name it by JNL=" >&2; exit 2; }
	install -d $(INTO)/bin $(MAN) $(COMPLETIONS)
	$(call install_one,jnl,$(JNL))
	$(if $(JNLFS),$(call install_one,jnlfs,$(JNLFS)))
	install -m 755 tools/backup $(INTO)/bin/jnl-backup

.PHONY: install install-program
