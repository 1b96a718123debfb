# The commands that README.md names.
.PHONY: help test edits lib run vectors compare faults fuzz bench way format documents

# The default: prints the commands with the time that they take.
help:
	@echo 'make test                       all that must hold: documents, proofs, wrong answers, comparisons   40 min'
	@echo 'make edits CRATES="names"       each wrong answer of these crates, or of all, by its own check          40 min'
	@echo 'make lib PREFIX=folder          the static library, its header and a pkg-config file          7 min, 5 s'
	@echo 'make run                        the console on the story of scripts/story.txt                 7 min, 5 s'
	@echo 'make vectors                    the worked examples of the papers, value by value             4 min, 5 s'
	@echo 'make compare N=calls SEED=seed  the engine beside the second implementation                 7 min, 1 min'
	@echo 'make faults                     faults planted in the second implementation, each found    13 min, 6 min'
	@echo 'make fuzz N=calls SEED=seed     random calls alone, a million unless told otherwise         7 min, 1 min'
	@echo 'make bench                      time, stack and size beside an engine written for speed     7 min, 1 min'
	@echo 'make way                        functions and copies on the way of a request                 7 min, 20 s'
	@echo 'make documents                  the documents held to the tree                                      10 s'
	@echo 'make format                     lays the files out                                                   5 s'
	@echo 'On two cores. Where two times stand, the first is from nothing, the second with all proved already.'
	@echo 'make test: on four cores, from nothing. The other times are those of the older kit (docs/PORT.md).'

# Holds kit and documents, proves every crate, tries the must-fail edits, runs the programs and the comparison tests.
test:
	@bash tools/test.sh

# Holds each wrong answer of the must-fail edits to its own refusal: make edits CRATES="names", or of all crates.
edits:
	@bash tools/edits.sh check $(CRATES)

# Proves the engine and puts the static library, its header and a pkg-config file into a folder, target/diminurel unless
# told otherwise: make lib PREFIX=folder.
lib:
	@bash tools/lib.sh "$(PREFIX)"

# Proves and runs the console on the customer's story, scripts/story.txt.
run:
	@bash tools/run.sh console

# Proves and runs the vectors program, and prints what each vector gives.
vectors:
	@bash tools/run.sh case_vectors

format:
	@for crate in crates/*/; do (cd "$$crate" && rt fmt) || exit 1; done

# Holds the documents to the tree.
documents:
	@bash tools/documents.sh

# Compares the engine with the second implementation in reference/: make compare N=calls SEED=seed.
compare:
	@bash tools/compare/engine.sh $(N) $(SEED)

# Plants each fault of reference/faults.txt in the second implementation: the comparison must report it.
faults:
	@bash tools/compare/faults.sh all

# Longer runs of random calls alone: make fuzz N=calls SEED=seed. Without a seed each run has another, and prints it.
fuzz:
	@bash tools/fuzz.sh "$(N)" "$(SEED)"

# Prints time, stack and size of the engine beside those of an engine written for speed in bench/.
bench:
	@bash tools/bench.sh

# Prints the functions that an SM?KL may reach, and the copies that a request of each command makes.
way:
	@bash tools/way.sh
