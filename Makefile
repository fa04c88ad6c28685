# What ./silo has built, installed as other programs are:
#   make install PREFIX=$HOME/.local     make uninstall PREFIX=$HOME/.local     make package
# DESTDIR is put before PREFIX. Where SILO names a program, that one is installed, and nothing is built.
PREFIX = /usr/local
DESTDIR =
TO = $(DESTDIR)$(PREFIX)
TOOLS = explain why picture
EXAMPLES = bank seats stock parking
VIM = ftdetect ftplugin syntax

.PHONY: build install uninstall package

ifndef SILO
SILO = crates/silo/out/silo
install package: build
endif

build:
	tools/build

install:
	install -d "$(TO)/bin" "$(TO)/lib/silo/python" "$(TO)/share/man/man1" "$(TO)/share/bash-completion/completions" "$(TO)/share/doc/silo"
	install -m 755 "$(SILO)" "$(TO)/bin/silo"
	install -m 755 $(TOOLS:%=tools/%) "$(TO)/lib/silo/"
	install -m 644 tools/python/silo.py "$(TO)/lib/silo/python/"
	for tool in $(TOOLS); do ln -sf ../lib/silo/$$tool "$(TO)/bin/silo-$$tool" || exit; done
	tools/man >"$(TO)/share/man/man1/silo.1"
	chmod 644 "$(TO)/share/man/man1/silo.1"
	install -m 644 tools/completion/silo.bash "$(TO)/share/bash-completion/completions/silo"
	for part in $(VIM); do install -D -m 644 tools/vim/$$part/grain.vim "$(TO)/share/vim/vimfiles/$$part/grain.vim" || exit; done
	install -m 644 README.md LICENSE CHANGELOG.md docs/*.md "$(TO)/share/doc/silo/"
	for name in $(EXAMPLES); do install -D -m 644 examples/$$name/$$name.grain "$(TO)/share/doc/silo/examples/$$name/$$name.grain" || exit; done

uninstall:
	rm -f "$(TO)/bin/silo" $(TOOLS:%="$(TO)/bin/silo-%")
	rm -rf "$(TO)/lib/silo" "$(TO)/share/doc/silo"
	rm -f "$(TO)/share/man/man1/silo.1" "$(TO)/share/bash-completion/completions/silo"
	rm -f $(VIM:%="$(TO)/share/vim/vimfiles/%/grain.vim")

package:
	SILO="$(SILO)" tools/package
