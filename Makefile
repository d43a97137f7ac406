# The front door: each target calls a script. `make help` lists the targets.
PREFIX = /usr/local
.DEFAULT_GOAL = build

demo:                   ## draws a picture, encodes it, loses a packet, and decodes the others (two minutes)
	@tools/lose_a_packet.sh

test:                   ## compares 1,700 runs with what the rules say (two minutes)
	@tools/test.sh

build:                  ## proves and builds the program and the library for C (one to two hours the first time)
	@tools/build.sh

prove:                  ## proves all crates from nothing and runs all tests (one to two hours)
	@rt ci

install:                ## installs what is built below PREFIX=/usr/local
	@tools/install.sh "$(PREFIX)"

uninstall:              ## removes what was installed below PREFIX
	@tools/install.sh --uninstall "$(PREFIX)"

release:                ## makes and tries dist/strip122-VERSION-x86_64-linux.tar.gz of what is built
	@tools/release.sh

help:                   ## lists these targets
	@sed -n 's/^\([a-z]*\): *## /make \1\t/p' Makefile

.PHONY: build demo test prove install uninstall release help
