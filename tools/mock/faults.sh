#!/bin/sh
# Tests the tools themselves: the mock must show no difference, and each of its faults must be caught by the differential run and by
# the fixed list, the one that the program replay has in the gate, or its large lines. usage: faults.sh [FAULT ..]
set -u
here=$(cd "$(dirname "$0")" && pwd)
cd "$(dirname "$here")" || exit 2
cargo build --release --offline -q -p mock || exit 2
TUPLE_LIB=$PWD/target/release cargo build --release --offline -q -p differential --all-features || exit 2
list=target/faults-list.txt
{ cat ../crates/replay/stdin && target/release/fixed-list --large 2>/dev/null; } > "$list" || exit 2

if [ $# -eq 0 ]; then
    # shellcheck disable=SC2046
    set -- none $(sed -n 's/^    [A-Za-z0-9]* "\(.*\)",$/\1/p' mock/src/faults.rs)
fi
missed=0
for fault in "$@"; do
    export TUPLE_FAULT="$fault"
    run=caught replayed=caught
    # the families of spans stand last: those of no span need not come before them
    case "$fault" in
        span-*) families=spans5,spans,members,limits ;;
        start-*) families=starts5,starts,begun,limits ;;
        *) families= ;;
    esac
    report=$(target/release/differential --cases 200000 --seconds 5 ${families:+--family "$families"} 2>/dev/null) && run=-
    target/release/differential --replay "$list" >/dev/null 2>&1 && replayed=-
    printf '%-20s run: %-7s list: %-7s %s\n' "$fault" "$run" "$replayed" "$(echo "$report" | grep -m 1 ' = ' | cut -c1-110)"
    if [ "$fault" = none ]; then expected=-; else expected=caught; fi
    [ "$run" = "$expected" ] && [ "$replayed" = "$expected" ] || missed=$((missed + 1))
done
echo "$missed not as expected"
[ "$missed" -eq 0 ]
