#!/usr/bin/env bash
# The static library of what the crates hold: tools/library.sh proves and writes target/staticlib/libexport.a where that
# is not it already. `rt lib` makes it of the crate export_c.
# Beside it stands made-of: the checksum of what the crates hold, the kit that proved it, and the archive's own
# checksum. A file that was merely touched is none that has changed.
#   tools/library.sh           proves what is not proved, and tells each crate
#   tools/library.sh --kit     the kit that proved the library
set -euo pipefail
cd "$(dirname "$0")/.."
kit=rattle-kit-13f
archive=target/staticlib/libexport.a note=target/staticlib/made-of

# What the crates hold, but for the edits that must fail and what rt keeps in out/: these are no part of the library.
held() {
    { find crates -regextype posix-extended -type f -not -regex 'crates/[^/]+/out/.*' -not -path '*/must-fail/*' \
          -not -name '.*' -print0
      printf 'crates.txt\0'; } |
        LC_ALL=C sort -z | xargs -0 sha256sum | sha256sum | cut -d ' ' -f 1
}

sum() {
    sha256sum "$1" | cut -d ' ' -f 1
}

# The kit whose rt is at hand.
kit_at_hand() {
    local rt
    rt=$(command -v rt) && head -n 1 "$(dirname "$(readlink -f "$rt")")/../KIT-ID" 2>/dev/null || echo "an unknown kit"
}

# Whether the archive is of what the crates hold.
is_proved() {
    [ -e $archive ] && [ -e $note ] || return 1
    [ "$(sed -n 3p $note)" = "$(sum $archive)" ] && [ "$(sed -n 1p $note)" = "$held" ]
}

# The crates that the library is made of, in the order of crates.txt, which has the lowest first.
made_of() {
    local -A below=() seen=()
    local line name queue=(export_c)
    while IFS= read -r line; do
        case $line in '#'* | '') continue ;; esac
        name=${line%%:*}
        below[${name%% *}]=${line#*:}
    done <crates.txt
    while [ ${#queue[@]} -gt 0 ]; do
        name=${queue[0]} queue=("${queue[@]:1}")
        if [ -n "${seen[$name]:-}" ]; then continue; fi
        # shellcheck disable=SC2206
        seen[$name]=1 queue+=(${below[$name]:-})
    done
    while IFS= read -r line; do
        name=${line%%:*} name=${name%% *}
        if [ -n "$name" ] && [ -n "${seen[$name]:-}" ]; then echo "$name"; fi
    done <crates.txt
}

# Proves a crate. What rt says of it is in target/library/, and is told if it isn't proved: then no other is begun.
prove_one() {
    local log=$PWD/target/library/$1.log
    (cd "crates/$1" && rt lib) >"$log" 2>&1 && echo "$1 is proved" || { cat "$log"; exit 255; }
}

# As many at a time as there are processors. A crate waits for those below it that another one is proving.
prove() {
    mkdir -p target/library
    export -f prove_one
    made_of | xargs -P "$(nproc 2>/dev/null || echo 2)" -I{} bash -c 'prove_one {}'
}

# Numbers the crates that are proved, and passes on nothing else.
tell() {
    local line at=0 all=$1
    while IFS= read -r line; do
        case $line in
        *' is proved') at=$((at + 1)) && echo "  $at of $all: $line" ;;
        esac
    done
}

if [ "${1:-}" = --kit ]; then
    sed -n 2p $note
    exit
fi
held=$(held)
if is_proved; then exit; fi
command -v rt >/dev/null || {
    echo "rt is missing, which proves the library: it comes with the Rattle toolchain, $kit;" \
        "put its bin folder into PATH"
    exit 1
}
echo "Proving the library, crate by crate: about twenty minutes in all on an idle machine where none is proved yet."
mkdir -p target/staticlib
prove | tee target/box.log | tell "$(made_of | wc -l)" || {
    echo "not proved; target/box.log says why"
    exit 1
}
cp crates/export_c/out/libexport_c.a $archive
printf '%s\n' "$held" "$(kit_at_hand)" "$(sum $archive)" >$note
