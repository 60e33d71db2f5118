# What a person types. Each target works on a fresh clone with what it needs on the PATH; what is missing is said in a line.
SHELL := /bin/bash
.PHONY: test panel bench card replay soak compare
.DEFAULT_GOAL := test

# A target's first line: `$(call needs,TOOLS)` ends it where one of them isn't on the PATH.
FROM_rt := the Rattle kit
FROM_gcc := Debian package gcc
FROM_python3 := Debian package python3
missing = $(strip $(foreach tool,$(1),$(if $(shell command -v $(tool)),,$(tool) ($(FROM_$(tool))))))
needs = $(if $(call missing,$(1)),$(error make $@: not on the PATH: $(call missing,$(1))))

# The gate: rt ci, which looks at the layout, at every proof, at the must-fail edits and at what the programs write; then the host tests.
# Where an edit is bad, rt ci passes all the same: its line `rt: ok` has to be there and to say of none that it is. rt ci's verdict is
# printed once more at the end; whatever fails ends it with a status other than 0. What rt ci says stays in target/ci.log, for the host tests.
GLIMMERHAUGH_CI_LOG ?= target/ci.log
test:
	$(call needs,rt gcc python3)
	@set -euo pipefail; \
	said=$$(mktemp); trap 'rm -f "$$said"' EXIT; \
	status=0; rt ci | tee "$$said" || status=$$?; \
	mkdir -p "$(dir $(GLIMMERHAUGH_CI_LOG))"; cp "$$said" "$(GLIMMERHAUGH_CI_LOG)"; \
	[ $$status -eq 0 ] || exit $$status; \
	grep -q '^rt: ok' "$$said" || { echo "make test: rt ci has no line 'rt: ok'" >&2; exit 1; }; \
	! grep -E '^rt: ok.*, [0-9]+ bad' "$$said" >&2 || { echo 'make test: must-fail edits are bad' >&2; exit 1; }; \
	python3 host/test.py; \
	tail -n 1 "$$said" | grep -xE '[0-9]+ passed, 0 failed'

# The archive of the functions for C, and where it is: target/staticlib/libpanel.a.
panel:
	$(call needs,rt)
	@host/prove panel_c && ls target/staticlib/libpanel.a

# The programs, on standard input: `card` (three lines) and `replay` (a call a line). Standard output has what
# they print and nothing else. A program is proved and built first where that isn't done yet; what there is to
# say of it goes to standard error.
card replay:
	$(call needs,rt)
	@host/prove $@ && host/x86_64/run crates/$@/out/$@

# More random scripts on the program replay, N of them: make soak N=100. SEED=.. starts from that seed.
N := 20
SEED :=
soak:
	$(call needs,rt python3)
	@host/prove replay && python3 host/soak.py $(N) $(SEED)

# Ratios to the strongest C and to Heimdal's library, in one run; sizes.
bench:
	$(call needs,rt gcc python3)
	@host/prove meter panel_c painted && python3 bench/bench.py

# Programs of others beside our answers, on inputs where they fail and on some where one agrees: all cases, or CASE=NAME.
compare:
	$(call needs,rt gcc python3)
	@host/prove panel_c replay && python3 host/compare/compare.py $(CASE)
