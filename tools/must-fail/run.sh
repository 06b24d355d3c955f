#!/bin/sh
# Tries the wrong programs that the gate has no time for. The prover must refuse each, as it must those in crates/*/must-fail, which the gate tries.
# usage: run.sh [CRATE ..]
set -eu
here=$(cd "$(dirname "$0")" && pwd)
root=$(cd "$here/../.." && pwd)
made=$(mktemp -d)
trap 'rm -rf "$made"' EXIT
tar -C "$root" --exclude='crates/*/out' -cf - crates crates.txt | tar -C "$made" -xf -
[ ! -e "$root/HANDLES" ] || cp "$root/HANDLES" "$made"
rm -rf "$made"/crates/*/must-fail
[ $# -gt 0 ] || set -- $(cd "$here" && ls -d */ | tr -d /)
for crate in "$@"; do
    cp -r "$here/$crate" "$made/crates/$crate/must-fail"
done
cd "$made"
rt must-fail "$@"
