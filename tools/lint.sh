#!/usr/bin/env bash
# What rustfmt and clippy say of all Rust that is ours: the box, the developers' program, the comparison, the bindings
# and the program that works out features for training. Any warning is an error. (The Rust text itself is not ours: its
# crate allows all that clippy finds.)
#   tools/lint.sh              both
#   tools/lint.sh --format     rustfmt alone, which needs no library
set -euo pipefail
cd "$(dirname "$0")/.."
root=$PWD
places=(host oracle bindings/rust bindings/shared bindings/ladspa host/model/train/features)

for place in "${places[@]}"; do
    (cd "$place" && cargo fmt --all --check)
done
if [ "${1:-}" = --format ]; then exit; fi
for place in "${places[@]}"; do
    (cd "$place" && cargo clippy --quiet --offline --locked --workspace --all-targets --all-features \
        --target-dir "$root/target/clippy" -- -D warnings)
done
