# Installs the released program with its manual page and its completion for bash, or makes an archive of them. Nothing is compiled
# or proved here, so it needs no kit: ./cellctl --prove proves and builds. docs/RELEASE.md says more.
PREFIX = /usr/local
DESTDIR =
program = cellctl-x86_64-linux
bin = $(DESTDIR)$(PREFIX)/bin/cellctl
page = $(DESTDIR)$(PREFIX)/share/man/man1/cellctl.1
completion = $(DESTDIR)$(PREFIX)/share/bash-completion/completions/cellctl

.PHONY: help install uninstall dist

help:
	@echo 'make install     installs the released program, its manual page and its completion for bash in PREFIX (/usr/local),'
	@echo '                 below DESTDIR, if that is given'
	@echo 'make uninstall   removes these three files'
	@echo 'make dist        makes an archive of the three files, dist/cellctl-VERSION-x86_64-linux.tar.gz'
	@echo 'Nothing is compiled or proved by them: ./cellctl --prove does that.'

# The page and the completion are made of the program's own helps, since those in docs/ may be of later sources.
install:
	@cd release && sha256sum -c --status SHA256SUMS || { echo 'release/$(program) has other bytes than SHA256SUMS says' >&2; exit 1; }
	@[ "$$(checks/sources.sh)" = "$$(cat release/SOURCES)" ] || echo 'the sources have moved on since this release was made' >&2
	install -D -m 755 release/$(program) '$(bin)'
	mkdir -p '$(dir $(page))' '$(dir $(completion))'
	CELLCTL='$(CURDIR)/release/$(program)' checks/man.sh > '$(page)'
	CELLCTL='$(CURDIR)/release/$(program)' checks/completion.sh > '$(completion)'
	chmod 644 '$(page)' '$(completion)'

uninstall:
	rm -f '$(bin)' '$(page)' '$(completion)'

dist:
	checks/archive.sh
