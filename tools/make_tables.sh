#!/bin/sh
# Makes the constant tables anew from the Rust text: `common()` of oracle/text/lib.rs and TANSIG_TABLE of
# oracle/text/util.rs, compiled as they stand; the cosines of request 08; and the constants of the logarithm.
# With --check it changes no file, and says which tables are not what it makes. Needs rustc and rt.
set -eu
cd "$(dirname "$0")/.."
room=$(mktemp -d)
trap 'rm -rf "$room"' EXIT
{
    echo 'use std::sync::OnceLock as OnceCell;'
    grep -hE 'const (FRAME_SIZE_SHIFT|FRAME_SIZE|WINDOW_SIZE|NB_BANDS): ' oracle/text/lib.rs
    sed -n '/^struct CommonState {/,/^\/\/\/ A brute-force DCT/p' oracle/text/lib.rs | sed '$d'
    sed -n '/^const TANSIG_TABLE/,/^];/p' oracle/text/util.rs
    cat tools/make_tables.rs tools/logarithm.rs
} >"$room/main.rs"
rustc --edition 2021 -o "$room/tables" "$room/main.rs"
for crate in bands logs numbers transforms; do mkdir -p "$room/crates/$crate/src" "$room/crates/$crate/specs"; done
cp crates.txt "$room"
(cd "$room" && ./tables)
for crate in bands logs numbers transforms; do
    (cd "$room/crates/$crate" && rt fmt >"$room/said" 2>&1) || { cat "$room/said"; exit 1; }
done
others=0
for file in $(cd "$room" && find crates -type f | sort); do
    cmp -s "$room/$file" "$file" && continue
    others=1
    if [ "${1:-}" = --check ]; then
        echo "$file is not what tools/make_tables.sh makes"
    else
        cp "$room/$file" "$file"
    fi
done
[ "${1:-}" != --check ] || exit $others
