#!/bin/sh
# Compiles and runs the checks of the library's boundary: that the header declares what the library exports, the layout of the answers, and the stack that each
# call uses.
# usage: run.sh FOLDER     FOLDER holds libtuple.a
set -eu
if [ $# -ne 1 ] || [ ! -f "$1/libtuple.a" ]; then
    echo "usage: $0 FOLDER   (the folder that holds libtuple.a)" >&2
    exit 2
fi
library=$(cd "$1" && pwd)/libtuple.a
cd "$(dirname "$0")"
./declared.sh
made=$(mktemp -d)
trap 'rm -rf "$made"' EXIT
for program in answers stack; do
    ${CC:-cc} -std=gnu11 -O1 -Wall -Wextra -o "$made/$program" "$program.c" "$library" -pthread
    "$made/$program"
done
