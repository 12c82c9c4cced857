# The commands of the README, and what stands beside them.
.PHONY: demo picture lister test bench lists fuzz sizes library

# A turn of the fiscal year, replayed: each call with its answer, as they are and in words.
demo:
	@scripts/demo

# The README's pictures, drawn from replay's answers to that story.
picture:
	@scripts/picture

# The lister on example 10 of document 01.
lister:
	@scripts/lister

# Proves every crate and runs every test; ends in `N passed, 0 failed`.
test:
	@scripts/test

# Times the library that firmware links beside safe Rust with fixed arrays; judges nothing. Calls between crates are inlined, so that
# the library is called as C would call it.
bench: library
	@CARGO_PROFILE_RELEASE_LTO=thin CARGO_TARGET_DIR=$(CURDIR)/target/bench cargo run --quiet --release --offline --locked --manifest-path tests/Cargo.toml --features linked --bin bench

# The long run of lists of calls: the library that firmware links beside the plain machine of document 01.
lists: library
	@CARGO_TARGET_DIR=$(CURDIR)/target/cargo cargo run --quiet --release --offline --locked --manifest-path tests/Cargo.toml --features linked --bin lists

# Fuzzes the library against the second implementation: make fuzz TARGET=reading|responses|calls SECONDS=60. No part of the gate.
TARGET = all
SECONDS = 60
fuzz: library
	@scripts/fuzz $(TARGET) $(SECONDS)

# RAM, stack and code of the library that firmware links.
sizes: library
	@scripts/sizes

# The library that firmware links, proved and built.
library:
	@scripts/archive
