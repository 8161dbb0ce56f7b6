# The commands of the README.
.PHONY: demo test library c device tool speed

# Runs a command whose output matters only where it fails.
quietly = log=$$(mktemp); $(1) >$$log 2>&1 || { cat $$log; rm -f $$log; exit 1; }; rm -f $$log

# A validator's morning by the tool: each command with its response, after a comparison with the proved program; then a counter's day, a ticket of
# three trips, and a fare queue's day.
demo:
	@tools/prove bench
	@$(MAKE) --no-print-directory tool
	@examples/demo

# All tests; the last line is 'N passed, 0 failed'.
test:
	@tests/run

# What firmware links, with include/element.h.
library:
	@tools/prove firmware
	@echo target/staticlib/libfirmware.a

# The library as C99 for other controllers, from the MIR that is proved: port/element.c and port/dock.c.
c:
	@tools/prove firmware
	@port/make
	@echo port/element.c port/dock.c

# The C files on an emulated Cortex-M3, on cases with the bytes that must come of them, written by the reference.
device:
	@port/device/run

# The command line tool over the library.
tool: library
	@$(call quietly,cargo build --release --offline -j1 --manifest-path tools/element/Cargo.toml --target-dir target/tool)
	@echo target/tool/release/element

# The library against the reference, built with optimisation: nanoseconds and ratios.
speed:
	@benchmark/run
