# make install PREFIX=/usr/local  puts the checker and the language server in place, with DESTDIR=FOLDER
#                                 for a package. The programs are those that are built here, and else
#                                 those of the release; SNL_CLI, SNL_REPORTER and SNL_LSP name others
# make uninstall                  takes them away
# make deb                        packs the release as a Debian package
# make release                    makes the release anew, of the programs that are proved and built here
PREFIX ?= /usr/local
DESTDIR ?=
SNL_CLI ?=
SNL_REPORTER ?=
SNL_LSP ?=
top = $(DESTDIR)$(PREFIX)
library = $(top)/lib/snl-check
shared = $(top)/share/snl-check
papers = $(top)/share/doc/snl-check
manual = $(top)/share/man/man1
completions = $(top)/share/bash-completion/completions

.PHONY: all install uninstall deb release

# The program is taken from the release or built again, where that is to be done, by the check of a
# text without errors.
all:
	@echo 'program p ss a { state i { when () { } state i } }' | SNL_CLI='$(SNL_CLI)' ./check --plain --quiet -

# Of a program for reports or a server that is named and not there nothing is installed.
install: all
	install -d '$(top)/bin' '$(library)/everyday' '$(library)/docs'
	install -d '$(shared)' '$(papers)' '$(manual)' '$(completions)'
	install -m 755 check '$(library)/check'
	install -m 644 everyday/*.awk everyday/help.txt everyday/version '$(library)/everyday/'
	install -m 644 everyday/answers.sh everyday/reporter.sh everyday/texts.sh '$(library)/everyday/'
	install -m 644 docs/LANGUAGE.md '$(library)/docs/LANGUAGE.md'
	install -m 644 everyday/snl-check.1 '$(manual)/snl-check.1'
	install -m 644 everyday/completion.bash '$(completions)/snl-check'
	install -m 644 CHANGELOG.md packaging/copyright '$(papers)/'
	cp -R editors '$(shared)/'
	rm '$(shared)/editors/words' '$(shared)/editors/'*/make_*
ifeq ($(SNL_CLI),)
	everyday/put_program snl_cli '$(library)/snl_cli'
else
	install -m 755 '$(SNL_CLI)' '$(library)/snl_cli'
endif
	ln -sf ../lib/snl-check/check '$(top)/bin/snl-check'
ifeq ($(SNL_REPORTER),)
	everyday/put_program snl_reporter '$(library)/snl_reporter'
else
	[ ! -x '$(SNL_REPORTER)' ] || install -m 755 '$(SNL_REPORTER)' '$(library)/snl_reporter'
endif
ifeq ($(SNL_LSP),)
	everyday/put_program snl_lsp '$(library)/snl_lsp'
else
	[ ! -x '$(SNL_LSP)' ] || install -m 755 '$(SNL_LSP)' '$(library)/snl_lsp'
endif
	[ ! -x '$(library)/snl_lsp' ] || install -m 755 lsp '$(library)/lsp'
	[ ! -x '$(library)/snl_lsp' ] || install -m 644 everyday/snl-lsp.1 '$(manual)/snl-lsp.1'
	[ ! -x '$(library)/snl_lsp' ] || ln -sf ../lib/snl-check/lsp '$(top)/bin/snl-lsp'

uninstall:
	rm -rf '$(library)' '$(shared)' '$(papers)'
	rm -f '$(top)/bin/snl-check' '$(top)/bin/snl-lsp'
	rm -f '$(manual)/snl-check.1' '$(manual)/snl-lsp.1' '$(completions)/snl-check'

deb:
	@packaging/make_deb

release:
	@packaging/make_release
