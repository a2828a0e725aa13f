# make run: a blank device file, if there is none, and tables on it.   make test: the merge gate.
DEVICE ?= device
SIZE ?= 64M
TABLES = crates/tables/out/tables

.PHONY: run test

run: $(TABLES)
	@test -e $(DEVICE) || truncate -s $(SIZE) $(DEVICE)
	@$(TABLES) $(DEVICE)

# `rt run` alone builds a program; /dev/null is no device, so that run ends at once
$(TABLES): crates.txt $(shell find crates -name '*.rt' -not -path '*/out/*')
	@echo 'proving and building tables ..' >&2
	@rm -f $@
	@(cd crates/tables && rt run -- /dev/null) >/dev/null 2>&1; test -x $@

test:
	@.ci/run
