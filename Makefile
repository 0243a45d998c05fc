# `make` alone lists what there is. All of it is done by tools/install.
PREFIX = /usr/local
export PREFIX DESTDIR

help:
	@echo 'make build       proves and builds the program and the libraries for C, where a source is newer'
	@echo 'make libraries   the libraries alone, and out/lib/libcvec.a and .so of them, which bindings/ take'
	@echo 'make install     builds, and puts all below PREFIX, with manual pages, headers and bindings'
	@echo 'make uninstall   takes away what make install put below PREFIX'
	@echo
	@echo 'PREFIX is $(PREFIX): make install PREFIX=/another/folder. DESTDIR stands before it for a package.'
	@echo 'docs/use/install.md says what is put where, and how programs find it. Tests: ./test'

build libraries install uninstall:
	@tools/install $@

.PHONY: help build libraries install uninstall
