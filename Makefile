# `make` lists what can be made. Times are of a machine with two processors, and those of proofs of an older kit.
.PHONY: help sitting sheet sheet-html spectrum page programs library install quick test bench clean

help:
	@echo "make sitting     papers, answers and marks: a small sitting of two candidates under target/sitting; the first time it proves what it needs"
	@echo "make sheet       the main job on a sample; the first time it proves what the program needs, a few minutes"
	@echo "make sheet-html  the same for paper: target/sheets/candidate.html and examiner.html"
	@echo "make spectrum    one symbol of the sample as a picture: target/sheets/spectrum.svg"
	@echo "make page        the bench page, one file for a tablet: target/page/bench.html; half a minute on built programs"
	@echo "make programs    proves and builds every program under target/bin; from nothing about ten minutes, then what has changed"
	@echo "make library     the C library, target/staticlib/liblayer1.a, for include/layer1.h; about two minutes on built programs"
	@echo "make install     the front command layer1, the programs, header, archive and a pkg-config file under PREFIX, as make install PREFIX=/usr/local"
	@echo "make quick       the loop of an edit: layout, names, contracts, proofs of what has changed, stored runs; at most two minutes on a proved tree"
	@echo "make test        the gate: proofs and must-fail edits, but for what this machine has proved before, programs, the second program, the C library"
	@echo "make bench       sender, reader, cells, nearest and restore beside the second program; five minutes"
	@echo "make clean       removes target/ and crates/*/out/, with all that was proved; what rt ci keeps beside the kit stays"

sitting:
	@mkdir -p target
	@rm -rf target/sitting
	@./layer1 sitting new target/sitting --mode 11 --frames 3 --candidates 2
	@./layer1 sitting make target/sitting
	@./layer1 sitting check target/sitting

sheet:
	@./layer1 sheet 11 3 sheets/sample/cells sheets/sample/frames

sheet-html:
	@./layer1 sheet 11 3 sheets/sample/cells sheets/sample/frames --html target/sheets --force

# Symbol 100 of the sample's last L1 frame, its upper sideband at half the scale of the lower.
spectrum:
	@mkdir -p target/sheets
	@./layer1 send 11 3 sheets/sample/frames -o target/sheets/sample.dump --force
	@./layer1 vector target/sheets/sample.dump 100 1 0.5 --frame 2 --picture target/sheets/spectrum.svg --force

# Whose bit stands in each cell, to tap on; written anew each time.
page:
	@./layer1 page target/page --force

programs:
	@.ci/programs

library:
	@include/library

install: programs library
	@PREFIX="$(PREFIX)" DESTDIR="$(DESTDIR)" include/install

quick:
	@.ci/quick

test:
	.ci/run

bench:
	bench/run

clean:
	rm -rf target crates/*/out
