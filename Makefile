# The commands of the README and of CONTRIBUTING.md.

PROGRAM = crates/nbt/out/nbt
LOOK = crates/nbt_look/out/nbt_look
NAMES = 'FRED<20>'
CAPTURE = examples/capture.txt
SECONDS = 60
PREFIX ?= /usr/local
DEB = out
LIBRARY = out/lib
TARGETS = out
DIST = out/dist
GATE =
PLUGIN = out/nbt.so
# The shell is given what users choose in the environment, whatever characters it has.
export PROGRAM LOOK DESTDIR PREFIX DEB LIBRARY TARGETS DIST PLUGIN PLUGINS

.PHONY: run build try check test bench fuzz completions lists install uninstall deb lib install-lib uninstall-lib targets page wireshark install-wireshark fuzz-coverage dist

# Prove and build the programs, nbt and nbt-look, and replay a capture in a station with these names.
run: build
	$(PROGRAM) replay $(NAMES) <$(CAPTURE)

# Prove and build the programs, and print their versions.
build:
	tools/program nbt nbt_look

# Build the program without proofs, and replay the same capture: a first look. A built program needs the proofs.
try:
	cd crates/nbt && rt try -- replay $(NAMES) <../../$(CAPTURE)
	@echo 'Nothing was proved: make proves the program, and builds it.'

# Prove every crate, over what earlier runs kept.
check:
	rt all check

# The merge gate: rt ci, and then the programs that it built as processes of their own.
test:
	tests/all.sh

# Build the program, and print what its commands cost, beside bars: instructions, packets a second, memory; what nbt-look costs; and,
# where the library, the page and the plugin for Wireshark are made, what they cost.
bench: build
	tests/bench.py
	tests/bench_tools.py "$$PLUGIN"
	[ ! -f "$$LIBRARY/libnbt.a" ] || tests/bench_library.py "$$PROGRAM" "$$LIBRARY"
	[ ! -f "$$TARGETS/nbt.html" ] || tests/bench_page.py "$$TARGETS/nbt.html"

# Build the program, and give it random and changed inputs: make fuzz SECONDS=600.
fuzz: build
	tests/fuzz.py --seconds $(SECONDS)

# Write the completions for bash and zsh anew, from the help texts of the built programs and of the tools.
completions: $(PROGRAM) $(LOOK)
	tools/completions.py bash $(PROGRAM) $(LOOK) >completions/nbt.bash
	tools/completions.py zsh $(PROGRAM) $(LOOK) >completions/_nbt

# Write what several languages list alike anew, of include/nbt.h and tools/nbt_look/vocabulary.py.
lists:
	tools/lists.py --write

# Put the programs below PREFIX, with their tools, pages and completions; tools/installation has the list. They are built first where
# they aren't there yet: after a change say make build.
install: $(PROGRAM) $(LOOK)
	@tools/installation put program

$(PROGRAM) $(LOOK) &:
	$(MAKE) build

# Take away what install put below the same PREFIX. What install-lib put there stays.
uninstall:
	@tools/installation take program

# Make a Debian package of the built programs, their tools and pages. DEBFULLNAME and DEBEMAIL say who answers for it.
deb: $(PROGRAM) $(LOOK)
	tools/deb "$$PROGRAM" "$$LOOK" "$$DEB"

# Prove the library for C and build it: LIBRARY has libnbt.a, libnbt.so.0 and nbt.pc.
lib:
	@tools/pkgconfig "$$PREFIX" >/dev/null
	cd crates/nb_c && rt lib
	tools/library crates/nb_c/out/libnb_c.a "$$LIBRARY" "$$PREFIX"

# Put the library below PREFIX, with its header, the package for Python, which finds it there, and the crate for Rust. It is built
# first where it isn't in LIBRARY yet: after a change say make lib. The system's loader has to find it then: the last lines say how.
install-lib:
	@[ -f "$$LIBRARY/libnbt.a" ] && [ -f "$$LIBRARY/libnbt.so.0" ] || $(MAKE) lib
	@tools/installation put library
	@echo "Programs that link libnbt.so.0 start once the loader finds it: run ldconfig as root where it looks into $$PREFIX/lib,"
	@echo "or link them with -Wl,-rpath,$$PREFIX/lib. docs/CALLING.md says more."

# Take away what install-lib put below the same PREFIX. What install put there stays.
uninstall-lib:
	@tools/installation take library

# Prove the library once, and make it for every target of the module that the kit makes of it: LIBRARY as lib does; in TARGETS the
# module, nbt.bc, the library for aarch64 in lib/aarch64, and nbt.wasm with nbt.mjs.
targets:
	@tools/pkgconfig "$$PREFIX" >/dev/null
	@tools/targets check "$$TARGETS"
	tools/module "$$TARGETS/nbt.bc"
	tools/library crates/nb_c/out/libnb_c.a "$$LIBRARY" "$$PREFIX"
	tools/targets make "$$TARGETS/nbt.bc" "$$TARGETS" "$$PREFIX"

# Make the page of what targets makes: one file for a browser, nbt.html in TARGETS, with the module in it.
page: targets $(PROGRAM)
	tools/page "$$TARGETS/nbt.wasm" "$$PROGRAM" "$$TARGETS/nbt.html"

# Make the plugin for the Wireshark whose headers are installed, with the library in it: PLUGIN. The library is proved and built first where
# it isn't there yet.
wireshark:
	[ -f "$$LIBRARY/libnbt.a" ] || $(MAKE) lib
	tools/plugin make "$$LIBRARY" "$$PLUGIN"

# Put the plugin where `tshark -G folders` says that yours are, as root those of all users; PLUGINS names another folder.
install-wireshark: wireshark
	@tools/plugin put "$$PLUGIN"

# Give the library random and changed inputs, with counters of what they reach, over the module that targets keeps.
fuzz-coverage: $(TARGETS)/nbt.bc
	tests/fuzz_coverage.py --seconds $(SECONDS) --module "$$TARGETS/nbt.bc"

$(TARGETS)/nbt.bc:
	@tools/targets check "$$TARGETS"
	tools/module "$$TARGETS/nbt.bc"

# Make packages for people who haven't the kit, in DIST: for Debian, Python, Rust and JavaScript, and the page. GATE names a file with what make test
# printed, whose last lines go into PROOF.
dist: targets $(PROGRAM) $(LOOK)
	tools/dist "$$TARGETS" "$$LIBRARY" "$$PROGRAM" "$$LOOK" "$$DIST" $(GATE)
