#!/bin/sh
# Builds and runs the benchmark of the static library against the original; tools/oracle/setup.sh comes first.
# usage: run.sh FOLDER [ARGUMENT ..]     FOLDER holds libtuple.a; an argument chooses the rows and calls whose names hold it, or is growth, counts or dose
set -eu
if [ $# -lt 1 ] || [ ! -f "$1/libtuple.a" ]; then
    echo "usage: $0 FOLDER [ARGUMENT ..]   (the folder that holds libtuple.a)" >&2
    exit 2
fi
TUPLE_LIB=$(cd "$1" && pwd)
export TUPLE_LIB
shift
cd "$(dirname "$0")/../tools"
cargo build --release --offline -q -p bench
exec target/release/bench "$@"
