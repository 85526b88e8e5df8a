#!/bin/sh
# Compares docs/REFUSALS.md with the code: each number that a definition refuses with is in the page's table, each
# function of the table "By call" exists, and the box says what the page's last column says. The constants of the header
# for C are made from the page (tools/make_header.sh). Exit status 1 if anything differs. Needs rustc.
set -eu
cd "$(dirname "$0")/.."
mkdir -p target/tools
rustc --edition 2021 -o target/tools/refusals tools/refusals.rs
target/tools/refusals
