#!/bin/sh
# Proves and archives the descriptor reader, links the boot code's test to it, runs that, and says pass or fail.
# It is no part of the gate. CC names the C compiler.
cd "$(dirname "$0")/.." || exit 2
out=target/c
mkdir -p "$out" || exit 2
if c/archive.sh >"$out/staticlib.out" 2>&1 &&
    ${CC:-cc} -std=c11 -O2 -Wall -Wextra -Werror -Iinclude c/check_arrays.c target/staticlib/libdescriptors.a -o "$out/check_arrays" &&
    "$out/check_arrays"; then
    echo pass
else
    echo fail
    exit 1
fi
