# Builds, runs, tests and installs Anubeshogwi.
#   make            the list program and the head-end's library
#   make run        the stops of a photograph
#   make test       the gate: all proofs and all tests
#   make install    header, library and program; PREFIX and DESTDIR as usual
#   make bench      times the proved jobs against plain C
#   make clean      removes all that was built, and each crate's out/
PREFIX ?= /usr/local
INSTALL ?= install

program := target/bin/stops
archive := target/staticlib/libheadend.a
header := include/anubeshogwi.h
sample := samples/camera_q50.pkt
crates := crates.txt $(shell find crates -path '*/out' -prune -o -name '*.rt' -print -o -name '*.antt' -print)
machine := . tests/machine.sh

.PHONY: all run test install bench clean
.NOTPARALLEL:

all: $(program) $(archive)
	@echo
	@echo "The list program:       $(program), for x86-64 Linux"
	@echo "The head-end's library: $(archive), for x86-64 Linux; its header: $(header)"

# Only what is proved is built; the first time, what they rest on is proved before them.
$(program): $(crates)
	@$(machine); need_rt && program stops
	@touch $@

$(archive): $(crates)
	@$(machine); need_rt && archive headend
	@touch $@

run: $(program)
	@$(program) <$(sample) >target/stops.txt
	@awk -v sample=$(sample) -f examples/show.awk target/stops.txt
	@echo "All of them: target/stops.txt"

test:
	@.ci/run

install: $(program) $(archive)
	$(INSTALL) -d $(DESTDIR)$(PREFIX)/include $(DESTDIR)$(PREFIX)/lib $(DESTDIR)$(PREFIX)/bin
	$(INSTALL) -m 644 $(header) $(DESTDIR)$(PREFIX)/include/
	$(INSTALL) -m 644 $(archive) $(DESTDIR)$(PREFIX)/lib/
	$(INSTALL) -m 755 $(program) $(DESTDIR)$(PREFIX)/bin/

bench:
	@bench/run

clean:
	rm -rf target crates/*/out
