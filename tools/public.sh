#!/bin/sh
# The public functions of crates/*/src. Exit status 1 if there is anything to list. Needs rustc.
# tools/public.sh contracts: those with a `requires`; and those without an `ensures` that speaks of what is returned and
#     of every buffer that is lent to be written. docs/PROMISES.md lists the exceptions, in its paragraph "Exceptions".
#     Also the impls of traits that do not say what their functions give.
# tools/public.sh calls: the C functions that take a store or a record, and whose contract is not a case of `Call`
#     (surface/specs/Surface.antt). The claims that benches are apart are about the cases of `Call` and no other call.
# tools/public.sh listed: those that docs/PROMISES.md does not list with their parameters, and what it lists and the
#     code does not have.
set -eu
cd "$(dirname "$0")/.."
mkdir -p target/tools
rustc --edition 2021 -o target/tools/public tools/public.rs
target/tools/public "$@"
