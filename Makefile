# `make help` lists what there is. Each target is a script, which says at its top what it does and takes its variables from the environment, so that
# paths with blanks and other characters arrive as they are.

export SHEET CALLS SEED ROUNDS CAPACITY SLOTS SENSE IMAGE VERBOSE PORTAL TARGET INITIATORS SECRET MODULE PREFIX DESTDIR

.PHONY: help run test serve iscsi initiators torture benchmark differential library install uninstall clean

help: ## this list
	@sed -n 's/^\([a-z]*\):.*## /\1	/p' Makefile | expand -t 14

run: ## the bench on an example sheet, or on SHEET=path
	@tools/run_sheet "$${SHEET:-examples/01-example.sheet}"

test: ## the gate: every proof (but what passed here before, of the same files), every wrong edit refused, every program and host check run
	@tools/test

serve: ## a store for SCSI tools, until Ctrl-C: CAPACITY=blocks SLOTS=n SENSE=fixed|descriptor IMAGE=file VERBOSE=0..2
	@tools/serve

iscsi: ## the same over iSCSI, by Debian's tgt: PORTAL=address:port INITIATORS=list SECRET=file TARGET=name MODULE=linked|served
	@tools/iscsi

initiators: ## real initiators on the store over iSCSI: libiscsi's tools and tests, qemu, a Linux guest
	@tools/initiators

torture: ## kills the server ROUNDS=n times (200) at random moments of a write load; SEED=n repeats a run
	@ROUNDS="$${ROUNDS:-200}" host/checks/torture

benchmark: ## instructions per call, beside the second program and a plain copy
	@tools/library
	@host/benchmark/run

differential: ## CALLS=n (5000000) random calls on the proved library and the second program; SEED=n repeats a run
	@CALLS="$${CALLS:-5000000}" host/checks/differential

library: ## target/staticlib/libridge.a, the proved library, where it is missing or stale
	@tools/library

install: ## header, library, pkg-config file and bench, below PREFIX (/usr/local) and DESTDIR
	@tools/install

uninstall: ## takes away what install put there
	@tools/install --remove

clean: ## removes target/
	rm -rf target
