# Thin lines over rt, for people's habits.
PREFIX ?= /usr/local
PROGRAM = crates/rewrite/out/rewrite

# A first look, before any proof.
try:
	cd crates/rewrite && rt try -- matches edge < ../../examples/path.json
	cd crates/rewrite && rt try -- run < ../../examples/infection.json
	@echo 'Nothing was proved: `make build` proves the program and leaves it at $(PROGRAM), `make test` is the gate.'

build: $(PROGRAM)

# The gate leaves the program too, so after `make test` there is nothing to build.
$(PROGRAM): $(wildcard crates/*/src/*.rt)
	cd crates/rewrite && rt check && rt run -- matches edge < ../../examples/path.json

test:
	rt ci
	examples/check

pages:
	python3 docs/check.py

compare:
	bench/compare

install: $(PROGRAM)
	install -D $(PROGRAM) $(DESTDIR)$(PREFIX)/bin/rewrite
	install -D -m 644 docs/rewrite.1 $(DESTDIR)$(PREFIX)/share/man/man1/rewrite.1

.PHONY: try build test pages compare install
