# Shortcuts for work on the code. The merge gate is ./test; nothing here replaces it.
CRATES := $(shell sed -n 's/^\([a-z][a-z0-9_]*\).*:.*/\1/p' crates.txt)

# stops where no crate is named
crate = $(or $(C),$(error name a crate: make $@ C=pool_base))

.DEFAULT_GOAL := help
.PHONY: help check try cases fmt edits gate test release differential index lint bench hooks clean
help:            ## this list; make alone prints it too
	@grep -hE '^[a-z]+:.*## ' $(MAKEFILE_LIST) | sed 's/:.*## /\t/'
check:           ## prove one crate: make check C=pool_base
	cd crates/$(crate) && rt check
try:             ## run one crate's tests, with no proof: make try C=pool_base
	cd crates/$(crate) && rt try --test
cases:           ## run one crate's tables of cases, with no proof: make cases C=wire_cases
	@cd crates/$(crate) && rt try --seconds 300 $$(for f in data/*; do echo --data $${f#data/}=$$f; done) -- $$(cat args)
fmt:             ## lay out every crate
	@for c in $(CRATES); do (cd crates/$$c && rt fmt) || exit 1; done
edits:           ## the must-fail edits: make edits C=pool_base
	rt must-fail $(crate)
gate:            ## prove one crate as the gate does: make gate C=pool_base
	@if rt help | grep -q 'rt ci .*NAME'; then rt ci $(crate); else (cd crates/$(crate) && rt check && rt test) && rt must-fail $(crate); fi
test:            ## everything that the merge runs
	./test
release:         ## renew the program in release/: it is proved and built first where a source has changed
	@scripts/release
differential:    ## the player beside PostgreSQL 15
	@scripts/differential
index:           ## public items with file and line: make index | grep -i sink
	@scripts/index
lint:            ## house rules that the gate does not know
	@scripts/lint
bench:           ## measure messages, a store, texts of SQL, names, a client's wire, a script or clients that are served: make bench W='messages 1000', W='store 1000', W='wire 100000', W='play 16000', W='sessions 20000', W='serve 2'
	@scripts/bench $(W)
hooks:           ## lay out the staged crates before each commit
	git config core.hooksPath .githooks
clean:           ## drop what checks kept
	rm -rf crates/*/out
