#!/usr/bin/env bash
# The fuzz targets are no part of the gate, but they must compile with the second implementation as it is. Ends in `N passed, M failed`.
set -u
cd "$(dirname "$0")/.." || exit 1
if CARGO_TARGET_DIR=$PWD/target/fuzz_check cargo check --quiet --offline --locked --manifest-path fuzz/Cargo.toml; then
    echo '1 passed, 0 failed'
else
    echo 'error: the fuzz targets do not compile'
    echo '0 passed, 1 failed'
    exit 1
fi
