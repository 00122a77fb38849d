# The kit's rt does all the work; these are the things that one asks for. One's own script, from any folder:
#   make -f HERE/Makefile try SCRIPT=my.xdp [TRACE=out.trace]
PREFIX ?= /usr/local
TOP := $(patsubst %/,%,$(dir $(abspath $(lastword $(MAKEFILE_LIST)))))
PROGRAM := $(TOP)/crates/xdptool/out/xdptool

.PHONY: demo try program test install

demo:
	cd "$(TOP)/crates/xdptool" && rt try --data first.xdp=data/first.xdp -- first.xdp

# A refused command is no failure here: status 0 and 1 both end well.
try: $(if $(SCRIPT),$(PROGRAM))
	@test -n "$(SCRIPT)" || { echo "usage: make try SCRIPT=FILE [TRACE=FILE]" >&2; exit 2; }
	@"$(PROGRAM)" $(if $(TRACE),--trace "$(TRACE)") "$(SCRIPT)" || { status=$$?; test $$status -eq 1 || exit $$status; }

# The program and the crates below it, proved and built with no test and no edit, and nothing where nothing has changed.
program:
	cd "$(TOP)/crates/xdptool" && rt run -- data/first.xdp > /dev/null

$(PROGRAM):
	$(MAKE) -f "$(TOP)/Makefile" program

test:
	cd "$(TOP)" && rt ci

install: $(PROGRAM)
	install -d $(PREFIX)/bin $(PREFIX)/share/man/man1
	install "$(PROGRAM)" $(PREFIX)/bin/xdptool
	install -m 644 "$(TOP)/docs/xdptool.1" $(PREFIX)/share/man/man1/xdptool.1
