#!/bin/sh
# Makes bindings/c/tuppence.h anew from crates/export/src: each function for C, and what each slice must be, as its
# comment has it; and the constants of docs/REFUSALS.md. It tells where such a comment is missing, and which declaration
# of bindings/rust is not that of the source: then it makes no header, and its exit status is 1.
# With --check it changes no file, and says whether the header is another than the one it makes. Needs rustc.
set -eu
cd "$(dirname "$0")/.."
mkdir -p target/tools
rustc --edition 2021 -o target/tools/make_header tools/make_header.rs
target/tools/make_header >target/tools/tuppence.h
cmp -s target/tools/tuppence.h bindings/c/tuppence.h && exit
if [ "${1:-}" = --check ]; then echo "bindings/c/tuppence.h is not what tools/make_header.sh makes"; exit 1; fi
cp target/tools/tuppence.h bindings/c/tuppence.h
