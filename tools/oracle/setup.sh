#!/bin/sh
# Sets the oracle up: Debian packages, the original's two files, cargo's settings, and a build.
# usage: setup.sh FOLDER     FOLDER holds the original's tuple.rs and error.rs
set -eu
if [ $# -ne 1 ] || [ ! -f "$1/tuple.rs" ] || [ ! -f "$1/error.rs" ]; then
    echo "usage: $0 FOLDER   (the folder that holds tuple.rs and error.rs)" >&2
    exit 2
fi
source=$(cd "$1" && pwd)
here=$(cd "$(dirname "$0")" && pwd)
tools=$(dirname "$here")

command -v cargo >/dev/null || { echo "$0: cargo is missing (Rust 1.85 or later is needed)" >&2; exit 2; }

missing=
for package in librust-memchr-dev librust-thiserror-dev librust-proptest-dev librust-proptest+default-dev; do
    dpkg -s "$package" >/dev/null 2>&1 || missing="$missing $package"
done
if [ -n "$missing" ]; then
    as_root=
    [ "$(id -u)" -eq 0 ] || as_root=sudo
    $as_root apt-get update
    # shellcheck disable=SC2086
    $as_root apt-get install -y --no-install-recommends $missing
fi
registry=$(dpkg -L librust-memchr-dev | sed -n 's|^\(/.*\)/memchr-[0-9][^/]*$|\1|p' | head -n 1)
[ -n "$registry" ] || { echo "$0: librust-memchr-dev has no registry folder" >&2; exit 2; }

for file in tuple.rs error.rs; do
    cmp -s "$source/$file" "$here/fjord-encoding/src/$file" || cp -f "$source/$file" "$here/fjord-encoding/src/$file"
done

mkdir -p "$tools/.cargo"
cat > "$tools/.cargo/config.toml" <<END
[source.crates-io]
replace-with = "debian"

[source.debian]
directory = "$registry"

[net]
offline = true
END

cd "$tools"
cargo build --release --offline -p oracle
"$tools/target/release/oracle" < "$here/specimens.txt"
