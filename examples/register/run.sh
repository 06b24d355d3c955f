#!/bin/sh
# Builds the register over LevelDB and runs it; what it prints must be expected.txt.
# usage: run.sh [FOLDER]     FOLDER holds libtuple.a; else TUPLE_LIB_DIR names it, else it is target/staticlib
set -eu
here=$(cd "$(dirname "$0")" && pwd)
folder=${1:-${TUPLE_LIB_DIR:-$here/../../target/staticlib}}
if [ $# -gt 1 ] || [ ! -f "$folder/libtuple.a" ]; then
    echo "usage: $0 [FOLDER]   (the folder that holds libtuple.a; there is none in $folder)" >&2
    exit 2
fi
TUPLE_LIB_DIR=$(cd "$folder" && pwd)
export TUPLE_LIB_DIR
if [ ! -e /usr/include/leveldb/c.h ] && ! apt-get install -y libleveldb-dev >&2; then
    echo "$0: LevelDB is missing: install Debian's libleveldb-dev" >&2
    exit 2
fi
made=$(mktemp -d)
trap 'rm -rf "$made"' EXIT
cd "$here"
cargo build --release --offline -q
status=0
cargo run --release --offline -q -- "$made/db" > "$made/printed" || status=$?
cat "$made/printed"
[ "$status" -eq 0 ] || exit "$status"
if ! diff -u expected.txt "$made/printed" > "$made/differences"; then
    cat "$made/differences" >&2
    echo "$0: what was printed is not expected.txt" >&2
    exit 1
fi
