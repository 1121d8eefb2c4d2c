.PHONY: play program try script examples bench test

SCRIPT = examples/first.script
WORDS =
PROGRAM = crates/worldrun/out/worldrun
# How many crates are proved side by side.
JOBS = 4

# Plays a script on the proved program, with the options in WORDS.
play: script
	@$(MAKE) --no-print-directory program
	@$(PROGRAM) play $(WORDS) < $(SCRIPT)

script:
	@[ -r '$(SCRIPT)' ] || { echo 'There is no script $(SCRIPT) that can be read.' >&2; exit 1; }

# Proves what has changed since the last time, crates that do not stand on one another side by side, and builds
# the program.
program:
	@$(MAKE) --no-print-directory -q $(PROGRAM) || { \
	    echo 'The first build proves every crate. On four processors that takes a quarter of an hour, and less where earlier checks are kept.' >&2; \
	    start=$$(date +%s); \
	    $(MAKE) --no-print-directory -j$(JOBS) $(PROGRAM) || exit 1; \
	    echo "It took $$((($$(date +%s) - start + 59) / 60)) minutes." >&2; \
	}

# A crate is proved behind those that it stands on.
crates/class_schema/out/proved crates/heap_plain/out/proved: crates/world_model/out/proved
crates/level_script/out/proved: crates/class_schema/out/proved
crates/world_play/out/proved: crates/play_io/out/proved crates/level_script/out/proved crates/heap_plain/out/proved
$(PROGRAM): crates/world_play/out/proved

sources = $(shell find crates/$(1) -path '*/out' -prune -o -name '*.rt' -print -o -name '*.antt' -print)

# Runs a command in a crate, and shows what it printed where it fails.
prove = @echo 'proving $(1)' >&2; mkdir -p crates/$(1)/out; log=crates/$(1)/out/log; \
    if (cd crates/$(1) && $(2)) > $$log 2>&1; then rm -f $$log; else cat $$log >&2; rm -f $$log; exit 1; fi

.SECONDEXPANSION:
crates/%/out/proved: crates.txt $$(call sources,$$*)
	$(call prove,$*,rt lib)
	@touch $@

$(PROGRAM): crates.txt $$(call sources,worldrun)
	$(call prove,worldrun,rt run -- play < /dev/null)
	@touch $@

# Plays a script at once, on an unproved build.
try: script
	@echo 'This is an unproved build.' >&2
	@cd crates/worldrun && rt try -- play $(WORDS) < $(abspath $(SCRIPT))

# Plays the scripts of examples/ in slices of several sizes, and compares what they write.
examples: program
	.ci/examples

# Measures the proved program on generated scripts.
bench: program
	@bench/run.py

# Proves everything, tries the must-fail edits and runs the tests: the gate, as it runs before a change lands.
test:
	.ci/run
