#!/bin/sh
# Compares every public call but the peripheral unit's with the same rules in C: proves and archives the crate of loops (perf/probe), links it
# with the peer, holds the two to each other on random inputs, and prints how many instructions a call takes on each side; the times instead
# where valgrind is missing.
# `run.sh --unproved`, once for trying a shape before its proof, says that today's kit cannot, and ends with 2.
# It is no part of the gate, and the loops are no crate of the project: their files have names that `rt` passes over, and they are proved in a copy
# below target/. What `rt` has proved before is not proved again. CC names the C compiler; the peer is built with -O2.
cd "$(dirname "$0")/.." || exit 2
[ "$1" != --unproved ] || exec perf/unproved.sh
out=target/perf
tree=$out/tree
# `rt ci` stops at a second crates.txt and at sources outside its crates, so the copy's go once the archive is made. What a next run's proofs begin
# with stays.
clean() {
    rm -rf "$tree/crates.txt" "$tree"/crates/*/src "$tree"/crates/*/specs "$tree"/crates/*/proofs "$tree"/crates/*/out/rlib
}
clean
mkdir -p "$tree/crates" || exit 2
trap clean EXIT
trap 'exit 2' INT TERM
# The libraries: all crates but the peripheral unit, the theorems, the boot code's archive, the programs and what they print with.
sed '/^#/d; / staticlib:/d; /^peripheral:/d; /^demands:/d; /^units:/d; /^printing:/d; / printing /d' crates.txt >"$tree/crates.txt"
names=$(sed 's/:.*//' "$tree/crates.txt" | tr '\n' ' ')
echo "probe staticlib: $names" >>"$tree/crates.txt"
for name in $names; do
    mkdir -p "$tree/crates/$name" || exit 2
    for part in src specs proofs; do
        [ ! -d "crates/$name/$part" ] || cp -r "crates/$name/$part" "$tree/crates/$name/" || exit 2
    done
done
(cd perf/probe && find . -name '*.txt') | while read -r file; do
    to=$tree/crates/probe/${file%.txt}
    mkdir -p "$(dirname "$to")" && cp "perf/probe/$file" "$to" || exit 2
done || exit 2
archive=$out/libprobe.a
(cd "$tree/crates/probe" && rt lib) >"$out/probe.out" 2>&1 || { tail -20 "$out/probe.out"; exit 1; }
cp "$tree/crates/probe/out/libprobe.a" "$archive" || exit 2
clean

for part in camera snapshot frame descriptors loops cases bench fuzz; do
    ${CC:-gcc} -std=c11 -O2 -Wall -Wextra -Werror -Ic -c "perf/$part.c" -o "$out/$part.o" || exit 1
done
link() { # MAIN OBJECT...
    main=$1
    shift
    ${CC:-gcc} "$out/$main.o" "$@" "$out/camera.o" "$out/snapshot.o" "$out/frame.o" "$out/descriptors.o" "$out/loops.o" "$archive" -o "$out/$main"
}
link fuzz && link bench "$out/cases.o" && "$out/fuzz" && "$out/bench" list >"$out/cases" || exit 1

command -v valgrind >/dev/null || { echo "valgrind is missing: times only" && exec "$out/bench"; }
total() { # CASE SIDE N
    valgrind --tool=callgrind --callgrind-out-file=/dev/null "$out/bench" "$@" 2>&1 | sed -n 's/.*Collected : //p'
}
each() { # CASE SIDE N
    echo $((($(total "$1" "$2" $((2 * $3))) - $(total "$1" "$2" "$3")) / $3))
}
printf '| %-42s | %9s | %9s | ratio |\n|---|---|---|---|\n' 'instructions a call' ours C
while read -r i n name; do
    awk -v name="$name" -v r="$(each "$i" ours "$n")" -v c="$(each "$i" peers "$n")" \
        'BEGIN { printf "| %-42s | %9d | %9d | %5.2f |\n", name, r, c, r / c }'
done <"$out/cases"
