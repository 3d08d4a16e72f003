# `make help` says what each target does.
PREFIX ?= /usr/local
MINUTES ?= 10
PROGRAM := crates/cdrc_words/out/cdrc_words
SOURCES := crates.txt $(shell find crates -name out -prune -o \( -name '*.rt' -o -name '*.antt' \) -print)
UNPROVED := nothing is proved here: make test proves everything
TRY := cd crates/cdrc_words && echo '$(UNPROVED)' >&2 && rt try --

.PHONY: help run script steps examples picture docs test cases soak allocations limits install clean

help: ## says what each target does
	@sed -n 's/^\([a-z]*\):.*## /make \1\t/p' Makefile | expand -t 16

run: ## compiles a small program, and prints the report of two sample files on two lanes: no proof
	@cd crates/word_report && echo '$(UNPROVED)' >&2 && rt try -- data/sample.txt data/second.txt < /dev/null

script: ## the same with the sample script
	@$(TRY) script data/sample.script < /dev/null

steps: ## the same with the sample list of steps
	@$(TRY) steps data/sample.steps < /dev/null

examples: ## runs a setting, a stack and a cache, each by two threads: half a minute, no proof
	@cd crates/example_threads && echo '$(UNPROVED)' >&2 && rt try < /dev/null

picture: ## draws docs/late_finish.svg anew out of docs/late_finish.steps
	python3 tools/picture.py docs/late_finish.steps docs/late_finish.svg

docs: ## checks the documents' links, names of proved functions, and printed outputs: a minute, no proof
	python3 tools/check_docs.py

test: ## make docs, then rt ci: every proof, must-fail edit, program and test; then every case of the program
	python3 tools/check_docs.py
	tools/check_edits.py
	rt ci
	tools/run_cases.py $(PROGRAM)
	tools/test_run_cases.py $(PROGRAM)

cases: $(PROGRAM) ## runs the program on each case of the folder cases, and shows that a wrong case is found
	tools/run_cases.py $(PROGRAM)
	tools/test_run_cases.py $(PROGRAM)

soak: $(PROGRAM) ## runs the program on drawn inputs for MINUTES, and compares it with a model in Python
	tools/soak.py $(PROGRAM) --minutes $(MINUTES)

allocations: $(PROGRAM) ## refuses each allocation of four runs of the program in turn: status 9, or the same end
	tools/fail_allocations.py $(PROGRAM) words crates/cdrc_words/data/sample.txt crates/cdrc_words/data/second.txt
	tools/fail_allocations.py $(PROGRAM) words --protect epoch crates/cdrc_words/data/sample.txt crates/cdrc_words/data/second.txt
	tools/fail_allocations.py $(PROGRAM) script crates/cdrc_words/data/sample.script
	tools/fail_allocations.py $(PROGRAM) steps crates/cdrc_words/data/sample.steps

limits: $(PROGRAM) ## gives the program files at its limits and past them, a folder, a pipe, a file that grows
	tools/limit_inputs.py $(PROGRAM)

install: $(PROGRAM) ## proves and builds the program, and copies it to PREFIX/bin, /usr/local/bin where PREFIX isn't given
	install -d $(DESTDIR)$(PREFIX)/bin
	install -m 755 $(PROGRAM) $(DESTDIR)$(PREFIX)/bin/cdrc_words

# a program that is older than a source is built again
$(PROGRAM): $(SOURCES)
	cd crates/cdrc_words && rt run -- words data/sample.txt > /dev/null

clean: ## removes what was built and kept
	rm -rf crates/*/out
