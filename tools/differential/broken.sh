#!/bin/sh
# A deliberately broken build: the library given, with an above_field that adds 00 in the place of FF. The differential run and the fixed list must both
# catch it. usage: broken.sh FOLDER     FOLDER holds libtuple.a; tools/oracle/setup.sh comes first
set -eu
if [ $# -ne 1 ] || [ ! -f "$1/libtuple.a" ]; then
    echo "usage: $0 FOLDER   (the folder that holds libtuple.a)" >&2
    exit 2
fi
here=$(cd "$(dirname "$0")" && pwd)
work=$(mktemp -d)
trap 'rm -rf "$work"' EXIT
objcopy --redefine-sym tuple_above_field=sound_above_field "$1/libtuple.a" "$work/libtuple.a"
cat >"$work/broken.c" <<'END'
#include "tuple.h"
tuple_length sound_above_field(const uint8_t *key, size_t key_len, uint8_t *out, size_t out_len);
tuple_length tuple_above_field(const uint8_t *key, size_t key_len, uint8_t *out, size_t out_len) {
    tuple_length r = sound_above_field(key, key_len, out, out_len);
    if (r.refusal == 0) {
        out[r.length - 1] = 0;
    }
    return r;
}
END
cc -O1 -I "$here/../../include" -c -o "$work/broken.o" "$work/broken.c"
ar r "$work/libtuple.a" "$work/broken.o"
missed=0
if "$here/run.sh" "$work" --family bytes3 --cases 100000 >"$work/run.txt" 2>&1; then
    echo "the differential run did not catch it"
    missed=1
else
    grep -m 2 'above_field\|ours:' "$work/run.txt" || true
fi
if "$here/run.sh" "$work" --replay "$here/../../crates/replay/stdin" >"$work/list.txt" 2>&1; then
    echo "the fixed list did not catch it"
    missed=1
else
    tail -n 1 "$work/list.txt"
fi
[ "$missed" -eq 0 ] && echo "caught by both"
