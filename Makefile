# `make` lists what can be made. PREFIX says where `make install` puts things, DESTDIR before it where a package is laid out.
PREFIX = /usr/local
DESTDIR =
PROGRAMS = stretch chart ledger
# The modules of scripts, and the files of vim's mode.
MODULES = explaining diagnosing grading
VIM = $(patsubst editors/vim/%,%,$(wildcard editors/vim/*/*))
# Where the proved programs stand: OUT/NAME/out/NAME, as the gate leaves them.
OUT = crates
# UNPROVED=yes installs programs that are not proved, which say so at each start. They are built in UNPROVED_OUT.
UNPROVED =
UNPROVED_OUT = out

to = $(DESTDIR)$(PREFIX)
home = $(to)/lib/stretch
doc = $(to)/share/doc/stretch
man = $(to)/share/man/man1
bash = $(to)/share/bash-completion/completions
zsh = $(to)/share/zsh/site-functions
fish = $(to)/share/fish/vendor_completions.d
vim = $(to)/share/vim/vimfiles
emacs = $(to)/share/emacs/site-lisp

help:
	@echo 'make ready                 build all three programs unproved, side by side, for a first start that does not wait'
	@echo 'make check                 prove, test and run everything, from nothing: some 25 minutes on four processors, 45 on two'
	@echo 'make vectors               run the proved program over all vectors and examples'
	@echo 'make tools                 try the scripts of tools/ with the proved program'
	@echo 'make bench                 time the proved program'
	@echo 'make web                   make the page with the whole machine in it, web/out/stretch.html (binaryen, cmark-gfm)'
	@echo 'make site                  the same as site/stretch.html, which is kept: with each version'
	@echo 'make dist                  make the archives of a release in dist/, of what make check has proved (docs/release.md)'
	@echo 'make install PREFIX=DIR    put the proved programs, scripts, pages, completions and modes of editors below DIR ($(PREFIX))'
	@echo '             UNPROVED=yes  the same with programs that are not proved, and say so: they are built in some minutes'
	@echo 'make uninstall PREFIX=DIR  take them away again'

ready:
	@sh .ci/ready

check:
	./check

vectors: proved
	sh vectors/run "$(OUT)/stretch/out/stretch"

tools: proved
	tools/check "$(OUT)/stretch/out/stretch"

bench: proved
	bench/run

web:
	web/build

site:
	web/build site/stretch.html

dist:
	release/make

# The proved programs stand, and none is older than the sources, definitions and proofs.
proved:
	@for name in $(PROGRAMS); do \
	    program="$(OUT)/$$name/out/$$name"; \
	    if [ ! -x "$$program" ]; then \
	        why='stands at'; \
	    elif [ -n "$$(find crates.txt crates -name out -prune -o \( -name '*.rt' -o -name '*.antt' -o -name crates.txt \) \
	            -newer "$$program" -print | head -n 1)" ]; then \
	        why='of the sources as they are stands at'; \
	    else \
	        continue; \
	    fi; \
	    echo "no proved program $$why $$program" >&2; \
	    echo 'make check makes it: some 25 minutes on four processors, 45 on two, with the kit (README.md, "What it needs")' >&2; \
	    echo 'make install UNPROVED=yes installs programs that are not proved' >&2; \
	    echo 'status 70: no program' >&2; \
	    exit 70; \
	done

# Programs that are not proved stand, and none is older than the sources.
unproved:
	@mkdir -p "$(UNPROVED_OUT)"
	@set -e; for name in $(PROGRAMS); do \
	    program="$(UNPROVED_OUT)/$$name"; \
	    if [ -x "$$program" ] && [ -n "$$(find crates.txt crates -name out -prune -o \( -name '*.rt' -o -name crates.txt \) \
	            -newer "$$program" -print | head -n 1)" ]; then rm -f "$$program"; fi; \
	    [ -x "$$program" ] || echo "$$name is built, and is not proved" >&2; \
	    python3 .ci/unproved $$name "$$program"; \
	done

# Everything lies in lib/stretch as in the repository, so a script finds its programs and pages there; bin/ has links to it. A
# door's script starts the program that lies beside it and not .ci/start, which would look at the sources.
install: $(if $(UNPROVED),unproved,proved) layout
	@set -e; for name in $(PROGRAMS); do \
	    if [ -z '$(UNPROVED)' ]; then \
	        cp "$(OUT)/$$name/out/$$name" "$(home)/programs/$$name"; \
	    else \
	        mkdir -p "$(home)/programs/unproved"; \
	        cp "$(UNPROVED_OUT)/$$name" "$(home)/programs/unproved/$$name"; \
	        chmod 755 "$(home)/programs/unproved/$$name"; \
	        sed "s/NAME/$$name/g" .ci/told >"$(home)/programs/$$name"; \
	    fi; \
	    chmod 755 "$(home)/programs/$$name"; \
	    sed 's|sh "$$here/[.]ci/start" '$$name'|"$$here/programs/'$$name'"|' $$name >"$(home)/$$name"; \
	    if grep -q '[.]ci/start"' "$(home)/$$name"; then echo "$$name starts its program in a way that is not known here" >&2; exit 1; fi; \
	    chmod 755 "$(home)/$$name"; \
	    link=stretch-$$name; [ $$name != stretch ] || link=stretch; \
	    ln -sf ../lib/stretch/$$name "$(to)/bin/$$link"; \
	done
	@set -e; for script in tools/*; do \
	    name=$${script#tools/}; \
	    { [ -f $$script ] && [ -x $$script ] && [ $$name != check ]; } || continue; \
	    cp $$script "$(home)/tools/$$name"; \
	    ln -sf ../lib/stretch/tools/$$name "$(to)/bin/stretch-$$name"; \
	    echo ".so man1/stretch-tools.1" >"$(man)/stretch-$$name.1"; \
	    ln -sf stretch "$(bash)/stretch-$$name"; \
	done
	cp explain VERSION "$(home)"
	cp .ci/ended "$(home)/.ci"
	@set -e; for part in $(MODULES); do cp tools/$$part/*.py "$(home)/tools/$$part"; done
	cp tools/knowledge/*.json "$(home)/tools/knowledge"
	cp -R tools/tasks "$(home)/tools"
	cp model/*.py "$(home)/model"
	cp web/*.html web/*.css web/*.svg web/*.js web/parts.py "$(home)/web"
	ln -sf ../lib/stretch/explain "$(to)/bin/stretch-explain"
	cp -R docs/*.md docs/lessons docs/pictures docs/proving README.md CHANGELOG.md examples "$(doc)"
	ln -sfn ../../share/doc/stretch "$(home)/docs"
	cp docs/stretch.1 docs/stretch-tools.1 "$(man)"
	echo '.so man1/stretch.1' >"$(man)/stretch-chart.1"
	echo '.so man1/stretch.1' >"$(man)/stretch-ledger.1"
	echo '.so man1/stretch-tools.1' >"$(man)/stretch-explain.1"
	cp tools/completions/stretch.bash "$(bash)/stretch"
	ln -sf stretch "$(bash)/stretch-chart"
	ln -sf stretch "$(bash)/stretch-ledger"
	ln -sf stretch "$(bash)/stretch-explain"
	cp tools/completions/_stretch "$(zsh)/_stretch"
	cp tools/completions/stretch.fish "$(fish)/stretch.fish"
	cp -R editors "$(home)"
	@set -e; for file in $(VIM); do \
	    mkdir -p "$(vim)/$${file%/*}"; \
	    ln -sf ../../../../lib/stretch/editors/vim/$$file "$(vim)/$$file"; \
	done
	ln -sf ../../../lib/stretch/editors/emacs/stretch-mode.el "$(emacs)/stretch-mode.el"

layout:
	mkdir -p "$(to)/bin" "$(home)/.ci" "$(home)/programs" "$(home)/tools/knowledge" "$(home)/model" "$(home)/web" "$(doc)" "$(man)" "$(bash)" "$(zsh)" \
	    "$(fish)" "$(vim)" "$(emacs)"
	@for part in $(MODULES); do mkdir -p "$(home)/tools/$$part"; done

uninstall:
	rm -f "$(to)/bin/stretch" "$(to)/bin/stretch-chart" "$(to)/bin/stretch-ledger" "$(to)/bin/stretch-explain"
	@for script in tools/*; do \
	    name=$${script#tools/}; \
	    [ ! -f $$script ] || rm -f "$(to)/bin/stretch-$$name" "$(man)/stretch-$$name.1" "$(bash)/stretch-$$name"; \
	done
	@for page in stretch stretch-tools stretch-chart stretch-ledger stretch-explain; do rm -f "$(man)/$$page.1"; done
	@for name in stretch stretch-chart stretch-ledger stretch-explain; do rm -f "$(bash)/$$name"; done
	rm -f "$(zsh)/_stretch" "$(fish)/stretch.fish" "$(emacs)/stretch-mode.el"
	@for file in $(VIM); do rm -f "$(vim)/$$file"; done
	rm -rf "$(home)" "$(doc)"

.PHONY: help ready check vectors tools bench web site dist proved unproved install layout uninstall
