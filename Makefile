# make            proves and builds the program
# make test       runs the merge gate: every proof, and the quick ones of the repository's own checks
# make checks     runs the own checks of the pages and of the built program, with those that take minutes
# make proofs     prints each clause of each public call, with the comment beside it
# make trusted    prints the definitions that the contract of the program rests on, by chapter, with how much text they
#                 are; COMMAND=judge: what it says of that command
# make limits     runs into the limits that take minutes to reach, keeps the program at work for a year, and makes a
#                 day's page of ten million packets
# make memory     runs the program with each allocation failing in turn
# make twice      builds the program once more, in a folder of another name, and compares the two
# make plants     has the prover refuse the wrong bodies in plants/, of all crates (hours) or of
#                 CRATES="mud_url mud_base"
# make planted    edits texts, and builds the program with wrong bodies: a check has to refuse each
# make score      has the prover try the wrong bodies that the toolchain makes itself, of all crates (hours) or
#                 of CRATES=..; MAX=400 a crate, in MINUTES=10 each, of functions that contain ONLY=
# make fuzz       runs it on inputs that were changed at random, for MINUTES=1 or another number
# make bench      measures how fast the program is
# make hostile    measures what the slowest inputs cost
# make install    puts the program into PREFIX/bin, its manual page into PREFIX/share/man/man1, and the
#                 pages for administrators, the examples and what contrib/ has into PREFIX/share/mud; all
#                 under DESTDIR, where it is given
# make uninstall  takes these away
# make deb        puts the same into a Debian package, out/gonnavir_VERSION_ARCHITECTURE.deb
# make clean      takes away all that was built
PREFIX ?= /usr/local
MINUTES ?= 1
CRATES ?=

# that of ./build or the one that the gate left, whichever is newer
program = $(firstword $(shell ls -t out/mud crates/mud/out/mud 2>/dev/null) out/mud)

.PHONY: build test checks proofs trusted limits memory twice plants planted score fuzz bench hostile install uninstall deb clean
build:
	sh ./build

# where there is a program 'make install' and 'make deb' take it as it is
$(program):
	sh ./build

test:
	bash .ci/run

checks: build
	checks/run -j "$$(nproc)" gate checks minutes

proofs:
	@checks/print proofs

trusted:
	@checks/print trusted $(if $(COMMAND),--command $(COMMAND))

limits: build
	checks/run -j "$$(nproc)" far-limits a-year busy-day

memory: build
	checks/run -j "$$(nproc)" failing-allocations

twice: build
	checks/run two-builds

plants:
	checks/run $(if $(CRATES),$(addprefix wrong-bodies.,$(CRATES)),wrong-bodies)

planted:
	checks/run planted

score:
	MAX=$(or $(MAX),400) MINUTES=$(if $(filter command%,$(origin MINUTES)),$(MINUTES),10) ONLY=$(ONLY) \
		checks/print score $(or $(CRATES),$$(sed -n 's/:.*//p' crates.txt))

fuzz: build
	fuzz/fuzz -m $(MINUTES)

bench: build
	bench/frames
	bench/check
	bench/book-commands
	bench/judge
	bench/replay
	bench/serve
	bench/row-changes
	bench/kept-changes

hostile: build
	bench/slowest-inputs

bin = $(DESTDIR)$(PREFIX)/bin
man = $(DESTDIR)$(PREFIX)/share/man/man1
share = $(DESTDIR)$(PREFIX)/share/mud

install: $(program)
	install -d "$(bin)" "$(man)" "$(share)"
	install -m 755 $(program) "$(bin)/mud"
	install -m 644 man/mud.1 "$(man)/mud.1"
	install -m 644 docs/GUIDE.md docs/REFERENCE.md docs/CLAIMS.md docs/page.png CHANGELOG.md "$(share)"
	cp -R examples "$(share)/examples"
	find "$(share)/examples" -type d -exec chmod 755 {} + -o -type f -exec chmod 644 {} +
	install -d "$(share)/page"
	install -m 644 contrib/page/* "$(share)/page"
	for file in contrib/*; do \
	  if [ -d "$$file" ]; then continue; fi; \
	  mode=644; if [ -x "$$file" ]; then mode=755; fi; \
	  install -m $$mode "$$file" "$(share)" || exit 1; \
	done
	sed -i 's|/usr/local/|$(PREFIX)/|' "$(share)"/mud*.service "$(share)/nginx-mud.conf" "$(share)/mud-console.nft" "$(share)/mud.bash-completion"

uninstall:
	rm -f "$(bin)/mud" "$(man)/mud.1"
	rm -rf "$(share)"

deb: $(program)
	@sh packaging/deb

clean:
	rm -rf crates/*/out out
