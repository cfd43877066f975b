# The toolchain's `rt` proves, builds and tests everything.

.PHONY: all demo check cases index bench install uninstall clean

PREFIX = /usr/local

# Proves and builds the program, and puts it here as ./mdbox.
all:
	cd crates/mdbox && rt run -- --version
	cp crates/mdbox/out/mdbox mdbox

# Prints the messages of a storage file that Dovecot 2.3.19 wrote; then makes a store in a folder of its own, delivers the message
# in demo/hello.eml, lists INBOX, fetches the message and compares it, makes a mailbox and moves the message there, does the script in
# demo/script on two lanes, counts what the store has, and prints the entries of its root log and of its map log.
demo: all
	./mdbox dump < demo/plain.m
	folder=$$(mktemp -d) && cd $$folder && $(CURDIR)/mdbox init 0011223344556677 && \
	$(CURDIR)/mdbox deliver INBOX < $(CURDIR)/demo/hello.eml && $(CURDIR)/mdbox list INBOX && \
	$(CURDIR)/mdbox fetch INBOX 1 | cmp - $(CURDIR)/demo/hello.eml && \
	$(CURDIR)/mdbox make Archive && $(CURDIR)/mdbox move INBOX 1 Archive && \
	$(CURDIR)/mdbox batch 2 < $(CURDIR)/demo/script && \
	$(CURDIR)/mdbox counts && \
	$(CURDIR)/mdbox logdump < storage/root.log && $(CURDIR)/mdbox logdump < storage/map.1.log && rm -r $$folder

# The gate: every proof, every edit that must fail, every test and program, and the names and the levels of crates.
check:
	.ci/run

# The cases of the whole program, without any proof: docs/testing.md.
cases:
	tools/cases

# Writes the lists of files in the crates' READMEs. `tools/index NAME` prints where a name is defined, and who uses it.
index:
	tools/index

# Puts the program that `make` left here below PREFIX, with mdbox-lda, which delivers for a mail server, and a man page that is made of
# what `mdbox --help` prints; `make uninstall` removes all three. DESTDIR stands before PREFIX, for packages.
install:
	@test -x mdbox || { echo "make install: run make first, which proves and builds the program" >&2; exit 1; }
	@./mdbox --version 2>&1 | grep -q '^proved by ' || { echo "make install: ./mdbox isn't proved" >&2; exit 1; }
	install -d $(DESTDIR)$(PREFIX)/bin $(DESTDIR)$(PREFIX)/share/man/man1
	./mdbox --help | tools/manual "$$(./mdbox --version)" > $(DESTDIR)$(PREFIX)/share/man/man1/mdbox.1
	install -m 755 tools/mdbox-lda $(DESTDIR)$(PREFIX)/bin/mdbox-lda
	install -m 755 mdbox $(DESTDIR)$(PREFIX)/bin/mdbox

uninstall:
	rm -f $(DESTDIR)$(PREFIX)/bin/mdbox $(DESTDIR)$(PREFIX)/bin/mdbox-lda $(DESTDIR)$(PREFIX)/share/man/man1/mdbox.1

# Times what a user waits for, beside Dovecot; then the program on a storage file of 200 MB, a log of 100 MB and stores of up to 100,000
# messages, taking messages apart, and appends to a log.
bench: all
	bench/user
	bench/dump
	bench/logdump
	cd crates/parts_bench && rt run -- read <stdin
	bench/parts
	bench/open
	bench/open mdbox 7 1000 flags
	bench/fetch
	bench/deliver
	bench/serve
	bench/attach
	bench/threads
	bench/rebuild
	bench/purge
	bench/hostile
	bench/ops
	cd crates/log_bench && rt run -- 1
	bench/sync

clean:
	rm -rf mdbox crates/*/out
