#!/usr/bin/env bash
# Holds the library that firmware links against the second implementation. Builds the static library, runs the tests, shows what they
# print (counts by cause among it), and ends in `N passed, M failed`.
set -u
cd "$(dirname "$0")/.." || exit 1
mkdir -p target || exit 1
root=$PWD
log=$root/target/compare.log

# finish PASSED FAILED: the last line, and the exit status.
finish() {
    printf '%d passed, %d failed\n' "$1" "$2"
    [ "$2" -eq 0 ] && [ "$1" -gt 0 ]
    exit
}

scripts/archive || finish 0 1

CARGO_TARGET_DIR=$root/target/cargo cargo test --release --offline --locked --no-fail-fast \
    --manifest-path tests/Cargo.toml --features linked -- --test-threads=1 --nocapture 2>&1 | tee "$log"
status=${PIPESTATUS[0]}

passed=0
failed=0
while read -r p f; do
    passed=$((passed + p))
    failed=$((failed + f))
done < <(sed -n 's/^test result: .* \([0-9]*\) passed; \([0-9]*\) failed; .*/\1 \2/p' "$log")
if [ "$failed" -eq 0 ] && { [ "$status" -ne 0 ] || [ "$passed" -eq 0 ]; }; then
    echo 'error: the tests were not built, or none ran to its end'
    failed=1
fi
finish "$passed" "$failed"
