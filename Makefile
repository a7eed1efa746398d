.PHONY: help try play checks style test soak suite duel map chart page live picture install package

# The first target, so `make` alone lists them too: each has its sentence after `##`.
help: ## lists what `make` can do
	@sed -n 's/^\([a-z]*\):.*## /  make \1\t/p' Makefile | expand -t 18
	@echo
	@echo "Another folder than ~/.local is \`make install PREFIX=FOLDER\`, and a longer duel is"
	@echo "\`make duel COUNT=N DATABASES=N SEED=N JOBS=N\`."

# Ends what needs a program that isn't there, before anything is proved for it.
has-%:
	@tools/common/command_line.py $*

# The tree that tests of scripts name in place of this one (tools/common/files.py).
unexport RACKSHOAL_TREE_OF_A_TEST

PREFIX ?= $(HOME)/.local
BUILT = crates/cave/out/cave
PROGRAM = $(BUILT)
# What has to be built first: nothing, if PROGRAM is another program.
MADE = $(filter $(BUILT),$(PROGRAM))
SOURCES = crates.txt \
	$(shell find crates -name out -prune -o -type f \( -name '*.rt' -o -name '*.antt' \) -print)
FIRST_GAME = play '$(CURDIR)/caves/shoal.txt' '$(CURDIR)/logs/tour.log' \
	--bind '$(CURDIR)/caves/shoal.bind' --seed 3

# Plays a shipped cave with a shipped log by the program as it is written, before any proof of it.
# `rt try` runs it in a folder of its own, so its files are handed over, and their names are bare.
TRY_FILES = --data 'shoal.txt=$(CURDIR)/caves/shoal.txt' \
	--data 'shoal.bind=$(CURDIR)/caves/shoal.bind' --data 'tour.log=$(CURDIR)/logs/tour.log'
TRY_GAME = play shoal.txt tour.log --bind shoal.bind --seed 3
try: has-rt ## plays a shipped log within a minute or two, unproved, and keeps no program
	@echo "Unproved: the program is compiled and run as it is written. This takes a minute or two."
	@mkdir -p out
	@cd crates/cave && rt try --seconds 900 $(TRY_FILES) -- $(TRY_GAME) 2> ../../out/try.log \
		|| { cat ../../out/try.log >&2; exit 1; }
	@echo
	@echo "That was unproved, and is kept nowhere. \`make play\` proves it all and plays the same."

# Plays the same with the program that was proved, and proves and builds first what isn't built.
play: $(MADE) ## proves and builds the program, and plays that log with it
	@'$(PROGRAM)' $(FIRST_GAME)

# Proves the program with all that it is built on, and builds it. What was said is in out/build.log.
$(BUILT): $(SOURCES)
	@mkdir -p crates/cave/out
	@echo "Proving and building. What is said goes into out/build.log."
	@cd crates/cave && ../../tools/measure/progress cave ../../out/build.log rt run -- $(FIRST_GAME)
	@touch $@

# What needs no proof and no program: names what nobody uses, imports from a crate that doesn't have
# the item, and what pages name and isn't there: files, names, commands, options, numbers, and what
# rows of rules do.
# Checks that the changelog has the version of the code, that the checks of pages and of suites fail
# when they should, how scripts answer `--help`, and what shells complete. A check that skips
# something says so in a line, and adds it to the file SKIPPED: `make test` ends with the sum.
checks test: export SKIPPED = $(CURDIR)/out/skipped
checks: ## checks names, imports, pages and scripts, in a minute or two, without any proof
	@rm -f out/skipped
	tools/check/run
	tools/check/rule-words --check
	tools/check/rooms --check
	python3 -B -m unittest discover tools/check/tests
	logs/tools/check-documents
	logs/tools/plant --check
	logs/tools/check-runner

# What is a matter of taste: phrases that CONTRIBUTING advises against.
style: ## tells of words for a reader to judge
	@tools/check/run style

# The gate: those checks, and the lines that must not compile; each proof from nothing, the edits
# that must fail, each of which has to compile, the tests and the program; then the suite with the
# program that was proved, and what the suite leaves out; runs that are disturbed as they write; cut
# caves, and refused memory; and last the second opinion.
test: has-rt has-cc checks ## runs the gate: proofs from nothing, wrong bodies, tests, suite and duel
	tools/check/wrong-lines
	@mkdir -p out
	tools/install/package --manuals out
	tools/measure/progress all out/test.log rt ci
	@tail -n 1 out/test.log
	@! grep 'BAD EDIT' out/test.log
	logs/run '$(PROGRAM)'
	logs/tools/check-large-cave '$(PROGRAM)'
	logs/tools/check-coverage '$(PROGRAM)'
	logs/tools/check-maps '$(PROGRAM)'
	logs/tools/check-many-logs '$(PROGRAM)'
	logs/tools/check-slips '$(PROGRAM)'
	logs/tools/check-drafts '$(PROGRAM)'
	tools/page/test server '$(PROGRAM)'
	logs/tools/check-script '$(PROGRAM)'
	tools/check/prefixes '$(PROGRAM)'
	tools/check/memory
	model/suite
	model/duel '$(PROGRAM)' --count 3000 --databases 10000 --seed 1 --quiet
	@touch out/skipped
	@cat out/skipped
	@awk '{ sum += $$1 } END { print "parts of checks that were skipped:", sum + 0 }' out/skipped

# What takes too long for the gate, after it: cut inputs, each allocation refused in turn, small
# wrong bodies, the how-to pages, and the long duel. It prints a line for each part.
soak: $(MADE) ## runs what takes longer: refused memory, small wrong bodies, a long duel
	tools/soak/soak

# Plays each log of logs/ with the program, and compares what it says with the transcript beside it;
# and then those that the model can play with the model.
suite: checks $(MADE) ## plays the logs of logs/, and compares them with their transcripts
	@logs/run '$(PROGRAM)'
	@logs/tools/check-large-cave '$(PROGRAM)'
	@logs/tools/check-coverage '$(PROGRAM)'
	@logs/tools/check-maps '$(PROGRAM)'
	@logs/tools/check-slips '$(PROGRAM)'
	@logs/tools/check-drafts '$(PROGRAM)'
	@logs/tools/check-script '$(PROGRAM)'
	@model/suite

# Plays directed and random games, and reads mutated databases, with the program and with the model
# in Python, and compares what both say. Case N of a seed is the same for any counts and jobs.
COUNT ?= 300
DATABASES ?= 1000
SEED ?= 1
JOBS ?= $(shell nproc)
duel: $(MADE) ## plays random games with the program and the model, and compares them
	@model/duel '$(PROGRAM)' --count $(COUNT) --databases $(DATABASES) --seed $(SEED) --jobs $(JOBS)

# Draws the map of the shoal with what the tour sees of it, by Graphviz, into docs/shoal.svg.
MAP = map caves/shoal.txt logs/tour.log --bind caves/shoal.bind --seed 3
map: has-dot $(MADE) ## draws the map of the shoal, by Graphviz, into docs/shoal.svg
	@mkdir -p out
	@'$(PROGRAM)' $(MAP) > out/shoal.dot
	@dot -Tsvg out/shoal.dot -o docs/shoal.svg
	@echo "docs/shoal.svg is drawn."

# Draws the score and the lamp of the tour over its lines, by gnuplot, into docs/tour.svg.
chart: has-gnuplot $(MADE) ## draws score and lamp of the tour, by gnuplot, into docs/tour.svg
	@mkdir -p out
	@'$(PROGRAM)' $(FIRST_GAME) --print steps > out/tour.steps
	@tools/page/chart out/tour.steps --output docs/tour.svg
	@echo "docs/tour.svg is drawn."

# Makes a page for a browser, docs/tour.html: the tour as it goes without the pillow, and the tour.
TOUR = caves/shoal.txt logs/tour.log
HOW = --bind caves/shoal.bind --seed 3
page: has-dot $(MADE) ## makes a page of two walks for a browser, docs/tour.html
	@mkdir -p out
	@'$(PROGRAM)' edit $(TOUR) logs/edit-tour.script $(HOW) --print log > out/tour-without-pillow.log
	@tools/page/page caves/shoal.txt out/tour-without-pillow.log --against logs/tour.log $(HOW) \
		--program '$(PROGRAM)' --output docs/tour.html
	@echo "docs/tour.html is made: open it in a browser."

# Serves a copy of the tour, out/live/tour.log, as a page on which its lines are edited. A copy that
# is there stays as it was edited.
live: has-dot $(MADE) ## edits a copy of that log in a browser: out/live/tour.log
	@mkdir -p out/live
	@test -e out/live/tour.log || cp logs/tour.log out/live
	@tools/page/live caves/shoal.txt out/live/tour.log $(HOW) --program '$(PROGRAM)'

# Takes the pictures of both pages that the pages of docs/ show, by a headless chromium.
picture: has-chromium has-chromedriver page ## takes the pictures of pages in docs/
	@tools/page/pictures '$(PROGRAM)'

# Puts the program into PREFIX, with cave-suite, cave-live, cave-page, cave-chart, manuals,
# completions, the shipped caves and first logs.
install: $(MADE) ## puts program, tools, manuals and completions into ~/.local
	@tools/install/package '$(PROGRAM)' $(GIVEN) --into '$(PREFIX)'

# Packs the same as an archive and as a Debian package, into out/package. Another program than the
# one that is built here is PROGRAM=FILE; the packages then say that it was handed over.
GIVEN = $(if $(filter-out $(BUILT),$(PROGRAM)),--given)
package: has-dpkg-deb has-strip $(MADE) ## packs the program as an archive and for Debian
	@tools/install/package '$(PROGRAM)' $(GIVEN)
