# RT is the command of the Rattle kit.
RT ?= rt

# Where `make install` installs, below DESTDIR where that is given; and the built program and library that it takes.
PREFIX ?= /usr/local
PROGRAM ?= crates/git2show/out/git2show
LIBRARY ?= crates/gitwire/out/libgitwire.a
VERSION = 0.3.0

.PHONY: run program library install test test-program test-git-suite test-peers audit mutants cases bench format

# The crates of this repository that a crate depends on, lowest first, and it: its line of crates.txt names them in that order.
with_those_below = $(foreach it,$(shell sed -n 's/^$(1)\( staticlib\)\{0,1\}: //p' crates.txt) $(1),$(if $(wildcard crates/$(it)),$(it)))

# Proves these crates one after another, and prints before each which of how many it is; the last one by `rt` and the words given. What
# has not changed since it was proved is passed over in a second.
define prove
	@set -- $(call with_those_below,$(1)) && at=0 && \
	for it in "$$@"; do \
		at=$$((at + 1)) && echo "crate $$at of $$#: $$it" && \
		if [ $$it = $(1) ]; then (cd crates/$$it && $(RT) $(2)); else (cd crates/$$it && $(RT) lib); fi || exit; \
	done
endef

# Shows a recorded conversation of Git by the program as it is, with nothing proved and nothing built to stay.
run:
	@echo 'make run: shows sample/conversation.pkt in about a minute; nothing is proved, which is what make program is for' >&2
	@cd crates/git2show && $(RT) try -- show < ../../sample/conversation.pkt

# Proves and builds the program, crates/git2show/out/git2show. `rt` has no word that builds a program and does not run it, so the run
# is one that ends at once.
program:
	@echo 'make program: proves and builds the program, which takes half an hour and more the first time'
	$(call prove,git2show,run -- --version)

# Proves and builds the library for programs in C, without its part in C, c/gitwire.c. A program has to link that as well; `make install` puts both
# into one.
library:
	$(call prove,gitwire,lib)

# Installs the program with its manual pages and completions for shells, and the library with its own pages, each under the name of every call
# that it describes too, its header, what that names (the pages on the protocol and on what is promised, the script that writes a repository
# text, the examples), and what pkg-config prints for it: a C program is then built with `pkg-config --cflags --libs gitwire` and nothing of
# this folder. It has the library twice: as an archive, and as a shared library of the same objects, which shows the calls of the header alone.
# What was built is taken as it is; what was not is proved first, and each is reported. The library's part in C is compiled here.
install: prefix = $(abspath $(PREFIX))
install: to = $(DESTDIR)$(prefix)
install: $(PROGRAM) $(LIBRARY)
	@for it in "$(PROGRAM)" "$(LIBRARY)"; do \
		newer=$$(find crates/*/src -name '*.rt' -newer "$$it" -print -quit); \
		echo "make install: takes $$it as it was built$${newer:+, though $$newer is newer}"; \
	done
	@install -D -m 755 "$(PROGRAM)" "$(to)/bin/git2show"
	@install -D -m 644 -t "$(to)/share/man/man1" man/git2show.1
	@install -D -m 644 -t "$(to)/share/man/man3" $(wildcard man/*.3)
	@for page in man/*.3; do \
		for call in $$(sed -n 's/^\.BR \(gitwire_[a-z_0-9]*\) ().*/\1/p' "$$page"); do \
			ln -sf "$${page##*/}" "$(to)/share/man/man3/$$call.3" || exit; \
		done; \
	done
	@install -D -m 644 -t "$(to)/share/man/man5" man/git2show.5
	@install -D -m 644 completions/git2show.bash "$(to)/share/bash-completion/completions/git2show"
	@install -D -m 644 -t "$(to)/share/zsh/site-functions" completions/_git2show
	@install -D -m 644 -t "$(to)/share/fish/vendor_completions.d" completions/git2show.fish
	@install -D -m 644 include/gitwire.h "$(to)/include/gitwire.h"
	@install -D -m 644 -t "$(to)/include/gitwire" include/gitwire/*.h
	@install -D -m 644 -t "$(to)/share/doc/gitwire" docs/PROTOCOL.md docs/PROMISES.md docs/STEPS.md
	@install -D -m 755 sample/repository-text.sh "$(to)/share/doc/gitwire/repository-text.sh"
	@install -D -m 644 -t "$(to)/share/doc/gitwire/examples" $(filter-out %.sh %.py,$(wildcard examples/*))
	@install -D -m 755 -t "$(to)/share/doc/gitwire/examples" $(wildcard examples/*.sh examples/*.py)
	@install -D -m 644 gitwire.pc.in "$(to)/lib/pkgconfig/gitwire.pc"
	@sed -i 's|@PREFIX@|$(prefix)|' "$(to)/lib/pkgconfig/gitwire.pc"
	@install -D -m 644 "$(LIBRARY)" "$(to)/lib/libgitwire.a"
	@objects=$$(mktemp -d) && \
		$(CC) -std=c11 -O2 -fPIC -Wall -Wextra -Iinclude -c -o "$$objects/gitwire_in_c.o" c/gitwire.c && \
		ar qs "$(to)/lib/libgitwire.a" "$$objects"/*.o && rm -r "$$objects"
	@$(CC) -shared -pthread -o "$(to)/lib/libgitwire.so.$(VERSION)" -Wl,-soname,libgitwire.so.1,--version-script=gitwire.map \
		-Wl,-z,defs,-z,relro,-z,now,--whole-archive "$(to)/lib/libgitwire.a" -Wl,--no-whole-archive
	@ln -sf libgitwire.so.$(VERSION) "$(to)/lib/libgitwire.so.1"
	@ln -sf libgitwire.so.1 "$(to)/lib/libgitwire.so"

$(PROGRAM):
	@echo "make install: $@ is not there: it is proved with all that it stands on, and built, which can take half an hour and more"
	@$(MAKE) --no-print-directory program

$(LIBRARY):
	@echo "make install: $@ is not there: it is proved with all that it stands on, and built, which can take half an hour and more"
	@$(MAKE) --no-print-directory library

# The merge gate: every proof from nothing, the edits that must fail, the tests and the programs. Its last line is the
# gate's own.
test:
	@$(RT) ci

# The built program from outside: as the real Git calls it, and by hand. It is what `make test` or `make program` left, and is
# built first where they left none. CASES, if given, chooses some of the cases by a pattern of their names.
test-program:
	@RT="$(RT)" tests/run.sh

# The worked cases: prints those that do not go as they state, and what differs from the gate's list of them.
cases:
	@cd crates/worked_conversations && $(RT) run -- data/packets.txt > /dev/null
	@cd crates/worked_conversations/data && ../out/worked_conversations $$(cat ../args) | diff ../stdout - \
		&& tail -n 1 ../stdout

# Lays out the files of each crate, since the gate refuses a crate with a file in another layout, and all that stand on it.
format:
	@for crate in crates/*/; do (cd "$$crate" && $(RT) fmt) || exit; done

# By what each wrong body is refused, those of the gate and those in wrong-bodies/: more than a merge waits for.
# CRATES names those to be tried, where not all are; LANES is how many at a time.
audit:
	@RT="$(RT)" wrong-bodies/audit.py $(CRATES)

# Makes mutants of the public functions of CRATE by `rt plant`, and prints what its contracts let through, beside what is known to be right. ONLY
# names the functions, where not all are to be changed; MINUTES is how long it may take after the first check.
MINUTES ?= 60
mutants:
	@RT="$(RT)" wrong-bodies/mutants.py "$(CRATE)" $(if $(ONLY),--only "$(ONLY)") --max 2000 --minutes $(MINUTES)

# Builds the Rattle programs, and measures them beside C and the real Git.
bench:
	@cd crates/bench_machines && $(RT) run -- client < stdin > /dev/null
	@$(MAKE) --no-print-directory program library > /dev/null
	@bench/run.sh

# Git's own tests of version 2, with examples/upload-pack.c in the place of Git's server: no part of what a merge waits for. It fetches and builds
# the source package of the installed Git, once, in the folder that GIT_SUITE names. TESTS names some of its test files, where not all are to run.
test-git-suite: $(LIBRARY)
	@$(CC) -std=c11 -O2 -Iinclude -o /tmp/gitwire-upload-pack examples/upload-pack.c c/gitwire.c "$(LIBRARY)"
	@tests/git-suite.sh /tmp/gitwire-upload-pack $(TESTS)

# Other Gits, dulwich, JGit and others of Debian's registry as clients and servers of ours (docs/PEERS.md): no part of what a merge waits for. They are
# unpacked, once, in the folder that PEERS names, and installed nowhere. TRY names some of them, where not all are to be tried.
test-peers: $(PROGRAM) $(LIBRARY)
	@tests/peers.sh "$(PROGRAM)" "$(LIBRARY)" $(TRY)
