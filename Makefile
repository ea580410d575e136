# Proves msp, builds it, and puts it where it is wanted. It needs the toolchain that README.md names, but for `install` and `dist`, which
# take the released program: the one where it is not there, the other always.
PREFIX ?= /usr/local
OUT := crates/msp/out
SOURCES := $(shell find crates/*/src crates/*/specs crates/*/proofs 2>/dev/null)
COMPANIONS := $(sort $(shell find companions -maxdepth 1 -type f -perm -u+x))
TO = $(DESTDIR)$(PREFIX)
# The program that was released for this machine, and the one to be installed.
RELEASED := released/msp$(if $(filter aarch64,$(shell uname -m)),-aarch64)
PROGRAM ?= $(if $(shell command -v rt 2>/dev/null),$(OUT)/msp,$(RELEASED))
PROCESSORS := $(shell getconf _NPROCESSORS_ONLN 2>/dev/null || echo 1)
# Crates proved at once: five for two processors, so that those on the longest ways begin when they can (tools/rules), but a gigabyte and a half each.
ROOM := $(shell awk '/^MemAvailable/ { most = int($$2 / 1500000); print (most < 1 ? 1 : most) }' /proc/meminfo 2>/dev/null || echo 1)
AT_ONCE ?= $(shell printf '%s\n' $$((5 * $(PROCESSORS) / 2)) $(ROOM) | sort -n | head -n 1)

.PHONY: program check install clean help atlas dist release ports
.DELETE_ON_ERROR:
MAKEFLAGS += --no-builtin-rules --no-print-directory

# The program, proved and built; after an edit only what changed is proved again, and what stands on it.
program: $(OUT)/msp
	@if cmp -s $(OUT)/msp released/msp; then echo '$(OUT)/msp is the released program, byte for byte'; \
	elif why=$$(tools/released); then echo '$(OUT)/msp is not the released program, though its sources are the same'; \
	else echo "$(OUT)/msp is not the released program: $$why"; fi

help:
	@echo 'make                the program, $(OUT)/msp: proves and builds what changed ($(AT_ONCE) crates at once here; AT_ONCE=N for others)'
	@echo 'make check          the gate: every proof, every test, every wrong body (rt ci), and the released program against them'
	@echo 'make install        the program, its manual page, and the companions as msp-NAME, to $(PREFIX) (PREFIX=..., DESTDIR=...)'
	@echo 'make atlas          all classes as one page, $(OUT)/atlas.html'
	@echo 'make ports          the program for browsers, for Node and for ARM, in $(OUT)/ports; says what it needs that is not here'
	@echo 'make release        puts what was built into released/, its ports too, with all checksums'
	@echo 'make dist           archives of the released program and of the sources, and wheels, in $(OUT)/dist'
	@echo 'make clean          removes all that was built'

check:
	.ci/run

install:
	@if [ $(PROGRAM) != $(RELEASED) ]; then $(MAKE) $(PROGRAM); \
	elif ! why=$$(tools/released && tools/released $(if $(findstring -,$(RELEASED)),--ports)); then echo "the released program is not that of the sources here, and not installed: $$why" >&2; exit 1; fi
	install -d "$(TO)/bin" "$(TO)/lib/msp/msp_tools/commands" "$(TO)/share/man/man1"
	install -m 755 $(PROGRAM) "$(TO)/bin/msp"
	install -m 755 $(COMPANIONS) "$(TO)/lib/msp"
	install -m 644 companions/msp_tools/*.py companions/msp_tools/py.typed "$(TO)/lib/msp/msp_tools"
	install -m 644 companions/msp_tools/commands/*.py "$(TO)/lib/msp/msp_tools/commands"
	install -m 644 docs/msp.1 "$(TO)/share/man/man1"
	for it in $$(cat companions/data-files); do install -D -m 644 "$$it" "$(TO)/share/msp/$$it"; done
	ln -sf ../../bin/msp "$(TO)/lib/msp/msp"
	for it in $(notdir $(COMPANIONS)); do ln -sf ../lib/msp/$$it "$(TO)/bin/msp-$$it"; done

release:
	tools/release

ports:
	tools/build-ports

dist:
	tools/dist

atlas: program
	companions/atlas --program $(OUT)/msp > $(OUT)/atlas.html

clean:
	rm -rf crates/*/out

ifneq ($(filter-out help clean check install release ports dist,$(or $(MAKECMDGOALS),program)),)
MAKEFLAGS += -j$(AT_ONCE)
# When this call began, by which tools/progress tells what it proved.
export BEGUN := $(shell date +%s)
# The toolchain's folder, which rt tells in half a second: asked once, where a crate is to be proved.
KIT = $(eval KIT := $(shell command -v rt >/dev/null && dirname "$$(rt doc)"))$(KIT)
# Batch processes do not interrupt what is at work when they have waited; as such, more provers than processors took 7 of 100 less time.
BATCH := $(shell chrt -b 0 true 2>/dev/null && echo chrt -b 0)
include $(OUT)/rules.mk
$(OUT)/rules.mk: crates.txt $(SOURCES) tools/rules
	@mkdir -p $(OUT)
	@tools/rules $(PROCESSORS) >$@
# Statements keep their time where they stay the same, so what stands on them is not proved again.
$(CRATES:%=$(OUT)/%.stated): $(OUT)/%.stated: $(OUT)/%.proved ;
endif
