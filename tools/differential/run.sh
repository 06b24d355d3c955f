#!/bin/sh
# Builds and runs the comparison of the static library with the original.
# usage: run.sh FOLDER [ARGUMENT ..]     FOLDER holds libtuple.a; the arguments go to `differential` (--help names them)
# TUPLE_PARTS names the library's parts to compare, if not all: scalars,encode,decode,skip,order,keys,cursors,chars
set -eu
if [ $# -lt 1 ] || [ ! -f "$1/libtuple.a" ]; then
    echo "usage: $0 FOLDER [ARGUMENT ..]   (the folder that holds libtuple.a)" >&2
    exit 2
fi
TUPLE_LIB=$(cd "$1" && pwd)
export TUPLE_LIB
shift
tools=$(cd "$(dirname "$0")/.." && pwd)
# cargo's settings stand in tools/; the arguments' files are where the caller is
(cd "$tools" && cargo build --release --offline -q -p differential --bin differential --no-default-features \
    --features "${TUPLE_PARTS:-scalars,encode,decode,skip,order,keys,cursors,chars}")
exec "$tools/target/release/differential" "$@"
