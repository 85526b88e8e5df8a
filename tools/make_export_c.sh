#!/bin/sh
# Makes crates/export_c/src anew from crates/export/src: the static library, whose functions call those of `export` and
# have their contracts. (A crate is a library or a static library, and replay calls `export` as a library.)
# With --check it changes no file, and says which files are not what it makes. Needs rustc and rt.
set -eu
cd "$(dirname "$0")/.."
mkdir -p target/tools
rustc --edition 2021 -o target/tools/make_export_c tools/make_export_c.rs
room=$(mktemp -d)
trap 'rm -rf "$room"' EXIT
made=$room/crates/export_c
target/tools/make_export_c "$made/src"
echo 'export_c staticlib:' >"$room/crates.txt"
(cd "$made" && rt fmt >"$room/said" 2>&1) || { cat "$room/said"; exit 1; }
cmp_all() { diff -rq "$made/src" crates/export_c/src; }
if [ "${1:-}" = --check ]; then
    cmp_all && exit
    echo "crates/export_c/src is not what tools/make_export_c.sh makes"
    exit 1
fi
mkdir -p crates/export_c
rm -rf crates/export_c/src
cp -r "$made/src" crates/export_c/src
