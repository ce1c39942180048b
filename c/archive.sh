#!/bin/sh
# Proves the crate that the boot code calls and writes target/staticlib/libdescriptors.a, which include/flandurvi_descriptors.h declares.
cd "$(dirname "$0")/.." || exit 2
mkdir -p target/staticlib || exit 2
(cd crates/descriptors_c && rt lib) || exit 1
cp crates/descriptors_c/out/libdescriptors_c.a target/staticlib/libdescriptors.a
