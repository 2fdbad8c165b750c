# make run: plan an example order.  make test: all of the tests.  docs/architecture.md says what stands where.
# make install PREFIX=...: archive, header, listing program, man pages.  make bench.  make fuzz SECONDS=...
ORDER ?= examples/three-jobs.order
PREFIX ?= /usr/local
SECONDS ?= 60
SHELL := /bin/bash

.PHONY: run test install bench fuzz

test:
	@tools/test

run:
	@tools/run $(ORDER)

install:
	@tools/install "$(DESTDIR)$(PREFIX)" "$(PREFIX)"

bench:
	@tools/bench

fuzz:
	@tools/fuzz $(SECONDS)

include c.mk
