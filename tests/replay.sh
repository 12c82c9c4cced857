#!/usr/bin/env bash
# Runs the program `replay`, built from the source as it is, on lists of calls, and compares its answers with those that document 01 has.
set -u
cd "$(dirname "$0")/.." || exit 1
replay=target/bin/replay
rust=target/cargo/release
if ! scripts/program replay ||
    ! CARGO_TARGET_DIR=$PWD/target/cargo cargo build --quiet --release --offline --locked --manifest-path tests/Cargo.toml --bins; then
    echo '0 passed, 1 failed'
    exit 1
fi
folder=$(mktemp -d) || exit 1
trap 'rm -rf "$folder"' EXIT
if ! python3 tests/replay_inputs.py "$folder" || ! python3 scripts/story "$folder/story.written"; then
    echo 'error: the inputs were not written'
    echo '0 passed, 1 failed'
    exit 1
fi
passed=0
failed=0

# same CASE STATUS: whether the program ended well and wrote the case's answers, byte for byte, and nothing else.
same() {
    if [ "$2" -eq 0 ] && cmp -s "$folder/wrote" "$folder/$1.answers" && [ ! -s "$folder/said" ]; then
        passed=$((passed + 1))
    else
        printf 'FAILED %s by %s (status %d) %s\n' "$1" "$program" "$2" "$(head -c 200 "$folder/said")"
        diff "$folder/wrote" "$folder/$1.answers" | head -n 4 | cut -c 1-300
        failed=$((failed + 1))
    fi
}

# the program, and the plain machine in Rust
for input in "$folder"/*.input; do
    case=$(basename "$input" .input)
    for program in "$replay" "$rust/plain_replay"; do
        "$program" <"$input" >"$folder/wrote" 2>"$folder/said"
        same "$case" "$?"
    done
done
program=$replay

# from a pipe the input comes in parts, some of them short, and ends anywhere in a line
for case in listed story longest-line line-too-long long-lines-in-a-row; do
    { head -c 40; sleep 0.1; head -c 70001; sleep 0.1; cat; } <"$folder/$case.input" | "$replay" >"$folder/wrote" 2>"$folder/said"
    same "$case" "${PIPESTATUS[1]}"
done

# an answer comes before the next line is given
answer=$(coproc R { "$replay"; }; printf 'due\n' >&"${R[1]}"; IFS= read -r -t 5 line <&"${R[0]}"; printf '%s' "$line"; eval "exec ${R[1]}>&-"; wait)
if [ "$answer" = 'no unit' ]; then passed=$((passed + 1)); else echo "FAILED: the answer came late: \`$answer\`"; failed=$((failed + 1)); fi

# the README says how much stack it takes: some 0.4 MB
(ulimit -s 480 && exec "$replay") <"$folder/story.input" >"$folder/wrote" 2>"$folder/said"
same story "$?"

# says_why NAME STATUS ANSWERS: whether the program ended well, gave these answers and said on standard error that a read failed.
says_why() {
    if [ "$2" -eq 0 ] && [ "$(cat "$folder/wrote")" = "$3" ] && [ "$(cat "$folder/said")" = 'replay: standard input could not be read to its end' ]; then
        passed=$((passed + 1))
    else
        printf 'FAILED %s: wrote `%s`, said `%s`\n' "$1" "$(head -c 200 "$folder/wrote")" "$(head -c 200 "$folder/said")"
        failed=$((failed + 1))
    fi
}

# a read that fails is not the end of the input: a folder, no input at all, and a connection that is cut within a line; that line is not answered
"$replay" </ >"$folder/wrote" 2>"$folder/said"
says_why 'a folder as input' "$?" ''
"$replay" <&- >"$folder/wrote" 2>"$folder/said"
says_why 'a closed input' "$?" ''
printf 'store 23808 255\nstore 5 0\nstore 6 17' >"$folder/cut"
python3 tests/cut_input.py "$folder/cut" "$replay" >"$folder/wrote" 2>"$folder/said"
says_why 'an input that is cut' "$?" $'accepted\naccepted'

# lists of calls drawn at random, against the plain machine in Rust
if "$rust/replay_lists" "$replay" 600; then
    passed=$((passed + 1))
else
    echo 'FAILED: lists of calls drawn at random'
    failed=$((failed + 1))
fi

# the story is the one that scripts/story writes
if cmp -s "$folder/story.written" story/fiscal_year.txt; then
    passed=$((passed + 1))
else
    echo 'FAILED: story/fiscal_year.txt is not what scripts/story writes'
    failed=$((failed + 1))
fi

# the words of the demo, and the pictures that scripts/picture draws
if python3 -B tests/demo_words.py; then passed=$((passed + 1)); else failed=$((failed + 1)); fi
if scripts/picture "$folder" && cmp "$folder/picture_day.svg" docs/picture_day.svg && cmp "$folder/picture_blocks.svg" docs/picture_blocks.svg; then
    passed=$((passed + 1))
else
    echo 'FAILED: the pictures in docs/ are not those that scripts/picture draws'
    failed=$((failed + 1))
fi

printf '%d passed, %d failed\n' "$passed" "$failed"
[ "$failed" -eq 0 ] && [ "$passed" -gt 0 ]
