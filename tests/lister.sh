#!/usr/bin/env bash
# Runs the lister, built from the source as it is, on inputs made from document 01, and compares the lines that it prints.
set -u
cd "$(dirname "$0")/.." || exit 1
lister=target/bin/lister
if ! scripts/program lister; then
    echo '0 passed, 1 failed'
    exit 1
fi
folder=$(mktemp -d) || exit 1
trap 'rm -rf "$folder"' EXIT
if ! python3 tests/lister_inputs.py "$folder"; then
    echo 'error: the inputs were not written'
    echo '0 passed, 1 failed'
    exit 1
fi
passed=0
failed=0

# same CASE STATUS: whether the lister ended well and wrote the case's line, byte for byte, and nothing else.
same() {
    if [ "$2" -eq 0 ] && cmp -s "$folder/wrote" "$folder/$1.line" && [ ! -s "$folder/said" ]; then
        passed=$((passed + 1))
    else
        printf 'FAILED %s: expected `%s`, got `%s` (status %d) %s\n' "$1" "$(cat "$folder/$1.line")" "$(head -c 200 "$folder/wrote")" "$2" "$(head -c 200 "$folder/said")"
        failed=$((failed + 1))
    fi
}

for input in "$folder"/*.input; do
    case=$(basename "$input" .input)
    "$lister" <"$input" >"$folder/wrote" 2>"$folder/said"
    same "$case" "$?"
done

# from a pipe the input comes in parts, some of them short
for case in example-10 yearly-of-19681-bytes longest-body longest-body-and-a-byte; do
    { head -c 40; sleep 0.1; cat; } <"$folder/$case.input" | "$lister" >"$folder/wrote" 2>"$folder/said"
    same "$case" "${PIPESTATUS[1]}"
done

# the README says how much stack it takes: some 1.3 MB
(ulimit -s 1400 && exec "$lister") <"$folder/longest-body.input" >"$folder/wrote" 2>"$folder/said"
same longest-body "$?"

# says_why NAME STATUS: whether the lister ended well, printed no line, and said on standard error that a read failed.
says_why() {
    if [ "$2" -eq 0 ] && [ ! -s "$folder/wrote" ] && [ "$(cat "$folder/said")" = 'lister: standard input could not be read' ]; then
        passed=$((passed + 1))
    else
        printf 'FAILED %s: wrote `%s`, said `%s`\n' "$1" "$(head -c 200 "$folder/wrote")" "$(head -c 200 "$folder/said")"
        failed=$((failed + 1))
    fi
}

# a read that fails is not the end of the input: a folder, no input at all, and a connection that is cut within the body
"$lister" </ >"$folder/wrote" 2>"$folder/said"
says_why 'a folder as input' "$?"
"$lister" <&- >"$folder/wrote" 2>"$folder/said"
says_why 'a closed input' "$?"
python3 tests/cut_input.py "$folder/example-10.input" "$lister" >"$folder/wrote" 2>"$folder/said"
says_why 'an input that is cut' "$?"

# files drawn at random, against the second implementation
if CARGO_TARGET_DIR=$PWD/target/cargo cargo run --quiet --release --offline --locked --manifest-path tests/Cargo.toml --bin lister_lines -- "$lister" 1000; then
    passed=$((passed + 1))
else
    echo 'FAILED: files drawn at random'
    failed=$((failed + 1))
fi

# the input that `rt ci` runs the lister on is example 10
if cmp -s crates/lister/stdin "$folder/example-10.input"; then
    passed=$((passed + 1))
else
    echo 'FAILED: crates/lister/stdin is not example 10'
    failed=$((failed + 1))
fi

printf '%d passed, %d failed\n' "$passed" "$failed"
[ "$failed" -eq 0 ] && [ "$passed" -gt 0 ]
