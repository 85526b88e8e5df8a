#!/bin/sh
# What stands in specs/. Exit status 1 where there is anything to list. Needs rustc.
# tools/definitions.sh uncited: the definitions of a reader's file that nothing a reader signs for leads to. A law
# counts
#     only if its type is a statement of specs/ itself, without a premise before it.
# tools/definitions.sh unstated: the laws that docs/ names as claims and whose type is not a statement of specs/ itself,
#     and those that docs/PROMISES.md names as the proof of another statement.
# tools/definitions.sh twice: the names that two files define, but for those of tools/definitions.txt.
set -eu
cd "$(dirname "$0")/.."
mkdir -p target/tools
rustc --edition 2021 -o target/tools/definitions tools/definitions.rs
target/tools/definitions "$@"
