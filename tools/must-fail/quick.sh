#!/bin/sh
# Tries every wrong program, those of the gate too, by incremental checks: some five to fifteen seconds for each, where the gate's own check of an edit takes
# its whole crate anew. It is the edit loop and no verdict; run.sh and rt ci are. For each edit it prints the first error: a fact that fails, not a misfit of shape.
# usage: quick.sh [CRATE ..]
set -eu
here=$(cd "$(dirname "$0")" && pwd)
root=$(cd "$here/../.." && pwd)
made=$(mktemp -d)
trap 'rm -rf "$made"' EXIT
tar -C "$root" --exclude='crates/*/out' -cf - crates crates.txt | tar -C "$made" -xf -
[ ! -e "$root/HANDLES" ] || cp "$root/HANDLES" "$made"
cd "$made"
[ $# -gt 0 ] || set -- $(sed -n 's/^\([a-z_]*\)[ :].*/\1/p' crates.txt)
tried=0 wrong=0

# Checks a crate over what earlier checks kept in its out/.
checks() { # CRATE
    (cd "crates/$1" && rt check) >log 2>&1
}

# Puts the crate's text back as it stands, and leaves what its checks kept.
restore() { # CRATE
    for part in "crates/$1"/*; do
        [ "$part" = "crates/$1/out" ] || rm -rf "$part"
    done
    tar -C "$root" --exclude='crates/*/out' -cf - "crates/$1" | tar -xf -
}

# Puts an edit's pairs of old and new text into the crate; an old text must stand once.
apply() { # CRATE EDIT
    awk -v crate="crates/$1" '
        function text_of(file,    line, all) { while ((getline line < file) > 0) all = all line "\n"; close(file); return all }
        /^file: / { file = crate "/" substr($0, 7) }
        /^old: / { old = substr($0, 6) }
        /^new:/ {
            new = substr($0, 5); sub(/^ /, "", new)
            text = text_of(file); at = index(text, old)
            if (!at || index(substr(text, at + length(old)), old)) { print FILENAME ": its old text does not stand once in " file; exit 1 }
            printf "%s%s%s", substr(text, 1, at - 1), new, substr(text, at + length(old)) > file
            close(file)
        }' "$2"
}

for crate in "$@"; do
    edits=$(ls "$root/crates/$crate/must-fail"/*.edit "$here/$crate"/*.edit 2>/dev/null || true)
    [ -n "$edits" ] || continue
    checks "$crate" || { echo "$crate is not proved as it stands"; exit 1; }
    for edit in $edits; do
        restore "$crate"
        tried=$((tried + 1))
        label=$crate/$(basename "$edit" .edit)
        if ! apply "$crate" "$edit"; then
            wrong=$((wrong + 1))
        elif checks "$crate" || ! grep -q '^logic=not-proved' log; then
            echo "$label: NOT REFUSED"
            wrong=$((wrong + 1))
        else
            # a function that the search proved has no proof file, and what calls it then fails for that
            why=$(grep -m 1 '^fn .*: no proof' log || grep -m 1 ': error: ' log)
            echo "$label: $(echo "$why" | sed "s|$made/crates/$crate/||" | cut -c 1-200)"
        fi
    done
    restore "$crate"
done
echo "$((tried - wrong)) refused, $wrong not"
[ "$wrong" -eq 0 ]
