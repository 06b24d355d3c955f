#!/usr/bin/env bash
# Builds the library for C and Rust, crate tuple_c, as target/staticlib/libtuple.a, for every x86-64 processor.
set -euo pipefail
cd "$(dirname "$0")/.."
(cd crates/tuple_c && rt lib --cpu=x86-64)
mkdir -p target/staticlib
cp crates/tuple_c/out/libtuple_c.a target/staticlib/libtuple.a
