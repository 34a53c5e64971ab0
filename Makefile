# try: the example unproved, in a minute. run: the same, proved. check: proves and tests all, as CI.
# slow: the tests that CI leaves out, in hours. packages: proves all, makes a release's in dist/.
# Each but packages installs the Debian packages that it lacks, or prints the line that does.
.PHONY: try run check slow packages

TELOVAMISH = $(CURDIR)/apps/telovamish/telovamish
LEDGER = avl_tree tb_records tb_ledger
# tools/needed.py is Python, which may be missing too.
NEEDED = { test -x /usr/bin/python3 || { test $$(id -u) = 0 && apt-get update -q >&2 && \
    apt-get install -y -q --no-install-recommends python3 >&2; } || \
    { echo "make needs Debian packages. Run: sudo apt-get install -y python3" >&2; exit 1; }; } && \
    tools/needed.py
# The example's script and its replies, in a folder that is removed; what rt prints is shown if it fails.
EXAMPLE = folder=$$(mktemp -d) && trap 'rm -rf $$folder' EXIT && \
    $(TELOVAMISH) script < examples/retry.text > $$folder/script
SERVE = -- run 2 < $$folder/script > $$folder/replies 2> $$folder/lines || \
    { cat $$folder/lines >&2; exit 1; }
SHOW = $(TELOVAMISH) replies --script $$folder/script < $$folder/replies

try:
	@$(NEEDED) try
	@$(EXAMPLE) && (cd crates/tb_script && rt try $(SERVE)) && $(SHOW)

# Crates that are built on the same ones wait for each other in one clone: tb_ledger is proved in a
# copy, next to tb_sessions, and its kept work is copied back.
run:
	@$(NEEDED) run
	(cd crates/avl_tree && rt lib --jobs 2) & (cd crates/tb_records && rt lib --jobs 2); wait
	@copy=$$(mktemp -d) && trap 'rm -rf $$copy' EXIT && \
	    tar -c $(LEDGER:%=crates/%) | tar -x -C $$copy && \
	    for it in $(LEDGER); do grep "^$$it:" crates.txt; done > $$copy/crates.txt && \
	    { (cd $$copy/crates/tb_ledger && rt lib) & (cd crates/tb_sessions && rt lib --jobs 2); wait; }; \
	    cp -a $$copy/crates/tb_ledger/out crates/tb_ledger
	@$(EXAMPLE) && (cd crates/tb_script && rt run $(SERVE)) && $(SHOW)

check:
	@$(NEEDED) check
	tools/check.py

slow:
	@$(NEEDED) slow
	tools/slow.py

packages:
	packaging/build
