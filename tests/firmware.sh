#!/usr/bin/env bash
# Builds the C program of tests/c with the header and the static library, as C and as C++, runs it, also under valgrind, and compares what
# it prints. Tries what the header's assertions must refuse. Ends in `N passed, M failed`.
set -u
cd "$(dirname "$0")/.." || exit 1
passed=0
failed=0

# expect NAME COMMAND..: one case.
expect() {
    local name=$1
    shift
    if "$@"; then
        passed=$((passed + 1))
    else
        echo "error: $name failed"
        failed=$((failed + 1))
    fi
}

have() {
    command -v "$1" >/dev/null
}

# What a program prints, held to the file.
prints() {
    "$@" >target/c/printed && diff tests/c/firmware.expected target/c/printed
}

build_c() {
    gcc -O2 -Wall -Wextra -Werror -std=c11 -Iinclude tests/c/firmware.c target/staticlib/libjagwelu.a -o target/c/firmware
}

build_cpp() {
    g++ -O2 -Wall -Wextra -Werror -std=c++17 -Iinclude -x c++ tests/c/firmware.c -x none target/staticlib/libjagwelu.a -o target/c/firmware_cpp
}

# What the archive asks of whoever links it, as README says it: no other name.
asks() {
    [ "$(nm -u target/staticlib/libjagwelu.a | sed -n 's/^ *U //p' | sort -u | paste -sd ' ')" = 'memcpy memset' ]
}

# refuses TEXT OPTION..: the compiler refuses the header with these options, and says so in these words.
refuses() {
    local text=$1
    shift
    ! gcc -std=c11 -ffreestanding "$@" -x c -fsyntax-only include/jagwelu.h 2>target/c/said && grep -q "$text" target/c/said
}

mkdir -p target/c || exit 1
for tool in gcc g++ nm valgrind python3; do
    expect "looking for $tool" have "$tool"
done
expect 'the static library' scripts/archive
expect 'the archive asks for memcpy and memset alone' asks
expect 'the C program builds' build_c
expect 'the C program prints what it should' prints target/c/firmware
expect 'the C program as C++ builds' build_cpp
expect 'the C program as C++ prints the same' prints target/c/firmware_cpp
expect 'the C program under valgrind' prints valgrind --quiet --error-exitcode=1 target/c/firmware
expect 'a header with two fields exchanged is refused' python3 tests/header_swaps.py include/jagwelu.h
expect 'a 32-bit compiler is refused' refuses 'is compiled for x86-64, where a size_t has 8 bytes' -m32
expect 'another machine is refused' refuses 'is compiled for x86-64 with the System V calling convention' -U__x86_64__
expect 'the header alone is taken' gcc -std=c11 -ffreestanding -Wall -Wextra -Werror -x c -fsyntax-only include/jagwelu.h
printf '%d passed, %d failed\n' "$passed" "$failed"
[ "$failed" -eq 0 ] && [ "$passed" -gt 0 ]
