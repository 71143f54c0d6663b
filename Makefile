# Melguda: an RPG II compiler, an object-program verifier and a machine. It is built with the Rattle kit's command `rt` and Python 3.10; a
# target that lacks one of them reports it (build/needs.sh).

EXAMPLE := sales
RPG2 := crates/rpg2/out/rpg2

# Where `make install` puts the program, its manual page and its completions; DESTDIR goes before it.
PREFIX ?= /usr/local
SHARE = $(DESTDIR)$(PREFIX)/share

.PHONY: run prove test edits bench package install files uninstall

# Shows the example report's source, compiles, verifies and runs it: what rpg2 prints for each, and the report. If no proved program is up to
# date, rpg2 is compiled without its proofs, in one to two minutes.
run:
	@build/needs.sh python3
	@build/run.py $(EXAMPLE)

# Proves and builds rpg2: docs/develop/GATE.md has how long that takes. A program that is newer than all it is made of is left as it is.
prove:
	@build/needs.sh python3 rt
	@build/rpg2.py

# The gate: every proof from nothing, every program as two compilers build it, the wrong bodies that the contracts refuse, every case, and
# the package; and what each crate of it costs.
test:
	@build/needs.sh python3 rt
	bench/gate.py

# All wrong bodies, over the libraries that the gate built: before a version, and after a change to a contract.
edits:
	@build/needs.sh python3 rt
	tests/edits.py

# The example's total over 1,000,000 records compared with awk's and a sales report compared with COBOL's; what decoding and verifying the
# largest programs takes; and what compiling costs.
bench: prove
	bench/running.py
	bench/verify.py
	bench/compile.sh

# The proved program as a Debian package and a tarball, with their check sums.
package:
	@build/needs.sh python3
	@build/rpg2.py --is-built
	@build/package.py out/release

# The proved program, its manual page, completions and pages.
install:
	@build/needs.sh python3
	@build/rpg2.py --is-built
	@$(MAKE) --no-print-directory files

# What `make install` and the package put in their places.
files:
	install -D -m 755 $(RPG2) $(DESTDIR)$(PREFIX)/bin/rpg2
	install -D -m 644 install/man/rpg2.1 $(SHARE)/man/man1/rpg2.1
	install -D -m 644 install/completions/rpg2.bash $(SHARE)/bash-completion/completions/rpg2
	install -D -m 644 install/completions/_rpg2 $(SHARE)/zsh/site-functions/_rpg2
	install -D -m 644 install/completions/rpg2.fish $(SHARE)/fish/vendor_completions.d/rpg2.fish
	install -d $(SHARE)/doc/rpg2
	cp -R README.md CHANGELOG.md CONTRIBUTING.md LICENSE docs examples $(SHARE)/doc/rpg2

uninstall:
	rm -f $(DESTDIR)$(PREFIX)/bin/rpg2 $(SHARE)/man/man1/rpg2.1 $(SHARE)/bash-completion/completions/rpg2
	rm -f $(SHARE)/zsh/site-functions/_rpg2 $(SHARE)/fish/vendor_completions.d/rpg2.fish
	rm -rf $(SHARE)/doc/rpg2
