#!/usr/bin/env bash
# Makes the box wrong, one line at a time, and sees that the test fails which tools/mutants.txt names for that line.
#   tools/mutants.sh             all of the list
#   tools/mutants.sh --gate      those that the gate makes
#   tools/mutants.sh NAME..      these
# It works on a copy of the tree in target/mutants, which is built without optimisation, and each time anew only as far
# as the line goes.
set -euo pipefail
cd "$(dirname "$0")/.."
command -v cargo >/dev/null || PATH="$HOME/.cargo/bin:$PATH"
root=$PWD tree=$PWD/target/mutants/tree log=$PWD/target/mutants/log
tools/library.sh

# The blocks of the list: the name and `gate`, the file, what stands there, what is put there, the test.
names=() gates=() files=() froms=() tos=() tests=()
while IFS= read -r name; do
    case $name in '' | '#'*) continue ;; esac
    IFS= read -r file && IFS= read -r from && IFS= read -r to && IFS= read -r test
    [[ $from = '- '* && $to = '+ '* ]] || { echo "mutants.txt: $name is no block of five lines" >&2; exit 1; }
    names+=("${name% gate}") files+=("$file") froms+=("${from#- }") tos+=("${to#+ }") tests+=("$test")
    case $name in *' gate') gates+=(1) ;; *) gates+=('') ;; esac
done <tools/mutants.txt

chosen=()
for at in "${!names[@]}"; do
    case " $* " in
    '  ') chosen+=("$at") ;;
    ' --gate ') [ -z "${gates[at]}" ] || chosen+=("$at") ;;
    *" ${names[at]} "*) chosen+=("$at") ;;
    esac
done
[ ${#chosen[@]} -gt 0 ] || { echo "mutants.txt has none of: $*" >&2; exit 1; }

# The copy. Its files are new to cargo: what a run before this one built may have been wrong.
rm -rf "$tree"
mkdir -p "$tree"
cp -a host bindings oracle docs README.md "$tree"
find "$tree/host/src" -type f -exec touch {} +

# The library is linked as it stands in target/staticlib: nothing is proved here.
triple=$(rustc -vV | sed -n 's/^host: //p')
flags=(--quiet --offline --locked --package tuppencehop --manifest-path "$tree/host/Cargo.toml"
    --target-dir "$root/target/mutants/build"
    --config "target.$triple.export.rustc-link-search=['native=$root/target/staticlib']"
    --config "target.$triple.export.rustc-link-lib=['static=export']"
    --config "target.$triple.export.kit='the tree'")
export CARGO_INCREMENTAL=1 CARGO_PROFILE_DEV_OPT_LEVEL=0 CARGO_PROFILE_TEST_OPT_LEVEL=0
export CARGO_PROFILE_DEV_DEBUG=0 CARGO_PROFILE_TEST_DEBUG=0

# The binary in which a test is: `lib`, or a file of host/tests.
binary() {
    case $1 in lib) echo --lib ;; *) echo "--test=$1" ;; esac
}

# As it stands, each of the tests must pass.
binaries=() filters=()
for at in "${chosen[@]}"; do
    read -r where test <<<"${tests[at]}"
    binaries+=("$(binary "$where")") filters+=("$test")
done
mapfile -t binaries < <(printf '%s\n' "${binaries[@]}" | sort -u)
mapfile -t filters < <(printf '%s\n' "${filters[@]}" | sort -u)
cargo test "${flags[@]}" "${binaries[@]}" -- "${filters[@]}" >"$log" 2>&1 || {
    cat "$log" >&2
    echo "mutants: the tests don't pass as the tree stands" >&2
    exit 1
}
echo "the tree as it stands passes its ${#filters[@]} tests, $SECONDS s"

# Makes one edit, and tells whether its test fails: 0 if it does, 1 if not, 2 if the edit is none.
try() {
    local file=$tree/host/src/${files[$1]} where test verdict=1
    read -r where test <<<"${tests[$1]}"
    FROM=${froms[$1]} TO=${tos[$1]} perl -0777 -pi -e '
        my ($from, $to) = @ENV{"FROM", "TO"};
        my $count = () = /\Q$from\E/g;
        warn "it stands there $count times\n" if $count != 1;
        s/\Q$from\E/$to/ if $count == 1' "$file" 2>"$log"
    if cmp -s "$file" "host/src/${files[$1]}" ||
        ! cargo test "${flags[@]}" "$(binary "$where")" --no-run >>"$log" 2>&1; then
        verdict=2
    elif ! timeout 300 cargo test "${flags[@]}" "$(binary "$where")" -- "$test" >>"$log" 2>&1; then
        ! grep -q "$test.* FAILED" "$log" || verdict=0
    fi
    cp "host/src/${files[$1]}" "$file"
    return $verdict
}

bad=0
for at in "${chosen[@]}"; do
    began=$SECONDS verdict=0
    try "$at" || verdict=$?
    case $verdict in
    0) echo "noticed: ${names[at]} (${tests[at]}), $((SECONDS - began)) s" ;;
    1) echo "NOT NOTICED: ${names[at]} (${tests[at]})" ;;
    *) cat "$log"; echo "NO EDIT: ${names[at]}: it is not found once in ${files[at]}, or does not compile" ;;
    esac
    [ "$verdict" = 0 ] || bad=$((bad + 1))
done
echo "${#chosen[@]} wrong lines, $bad not noticed, $SECONDS s"
[ "$bad" = 0 ]
