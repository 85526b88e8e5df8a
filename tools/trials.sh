#!/usr/bin/env bash
# Shows that the gate's checks fail when they should. Each trial copies the tree, makes one bad change in the copy, runs
# one check there and wants it to fail with the words that name the fault. Without the change the check must succeed.
#   tools/trials.sh           the quick trials, a few seconds in all; the gate runs them
#   tools/trials.sh --slow    those that prove or compile as well, some minutes. Needs rt, the static library and cargo.
#                             With names (prover, without_a_group, lower_limit) these alone
set -euo pipefail
cd "$(dirname "$0")/.."
root=$PWD
scratch=$(mktemp -d)
trap 'rm -rf "$scratch"' EXIT
passed=0 failed=0

# Copies these crates into a folder, but for what rt keeps in their out/.
copy_crates() {
    local to=$1
    shift
    mkdir -p "$to"
    find "$@" -regextype posix-extended -type f -not -regex 'crates/[^/]+/out/.*' -print0 |
        xargs -0 cp --parents -t "$to"
}

# A copy of what the checks read, the compiled checkers among it.
copy() {
    mkdir -p "$scratch/all/host" "$scratch/all/target"
    copy_crates "$scratch/all" crates
    cp -r crates.txt docs tools bindings "$scratch/all"
    cp -r host/src "$scratch/all/host"
    cp -r target/tools "$scratch/all/target"
}

# A fresh tree of links to that copy: to the files of what is changed here, and to the other crates as they are. A
# change may replace a file; before it adds to one, it makes it its own.
fresh() {
    rm -rf "$scratch/tree"
    mkdir -p "$scratch/tree/crates"
    ln -s "$scratch"/all/crates/* "$scratch/tree/crates"
    rm "$scratch"/tree/crates/{checksum,export,rules}
    cp -al "$scratch"/all/crates/{checksum,export,rules} "$scratch/tree/crates"
    cp -al "$scratch"/all/{crates.txt,docs,tools,bindings,host,target} "$scratch/tree"
}
own() { cp "$1" "$1.own" && mv "$1.own" "$1"; }

# trial NAME WORDS CHANGE CHECK..: CHANGE is a function that changes the tree it is in. CHECK must then fail and say
# WORDS. That it succeeds without the change is seen once for each check, or each time if it notes something in the
# tree.
sound=' '
trial() {
    local name=$1 words=$2 change=$3 said
    shift 3
    fresh
    cd "$scratch/tree"
    if [[ $sound != *" $* "* ]] && ! said=$("$@" 2>&1); then
        echo "TRIAL $name: the check fails without the change: $(tail -n 1 <<<"$said")"
        failed=$((failed + 1))
    elif ! "$change"; then
        echo "TRIAL $name: its change can't be made any more; look at it in tools/trials.sh"
        failed=$((failed + 1))
    elif said=$("$@" 2>&1); then
        echo "TRIAL $name: the check did not notice"
        failed=$((failed + 1))
    elif ! grep -qF -- "$words" <<<"$said"; then
        echo "TRIAL $name: the check failed, and did not say “$words”: $(tail -n 2 <<<"$said")"
        failed=$((failed + 1))
    else
        echo "trial $name: refused"
        passed=$((passed + 1))
    fi
    case $1 in columns | reasons) ;; *) sound+="$* " ;; esac
    cd "$root"
}

# replace FILE OLD NEW: replaces the one place where a line of FILE has OLD.
replace() {
    [ "$(grep -cF -- "$2" "$1")" = 1 ] || { echo "$1 has “$2” not once"; return 1; }
    OLD=$2 NEW=$3 perl -0pi -e 's/\Q$ENV{OLD}\E/$ENV{NEW}/' "$1"
}

definitions() { target/tools/definitions "$@"; }
public() { target/tools/public "$@"; }
refusals() { target/tools/refusals; }
header() { target/tools/make_header >target/tuppence.h && cmp target/tuppence.h bindings/c/tuppence.h; }
# the first time, the lines that there are may be there
columns() {
    [ -e counted ] || { tools/columns.sh --count >counted && rm tools/columns.txt && cp counted tools/columns.txt; }
    tools/columns.sh
}

# ---- a claim that has a premise

impossible_premise() {
    replace crates/checksum/proofs/Apart.antt 'pub same_end : SameEnd' 'pub same_end : (never : ⊥) → SameEnd'
}
premise_of_a_module() {
    local file=crates/checksum/proofs/Apart.antt
    grep -q '^pub same_end : SameEnd$' $file || return 1
    # the law and what follows it, in a module with a parameter
    sed -i -e '/^pub same_end : SameEnd$/,$ s/^./  &/' -e 's/^  pub same_end /module _ (never : ⊥) where\n&/' $file
}
# the law is typed by a word of the library, and by nothing that specs/ states
library_word() {
    replace crates/checksum/proofs/Apart.antt 'pub same_end : SameEnd' 'pub same_end : T true' || return 1
    own crates/checksum/proofs/Apart.antt
    sed -i '0,/^use /s//use Rattle.std.specs.Prelude.{T, true}\nuse /' crates/checksum/proofs/Apart.antt
}
other_statement() { replace docs/PROMISES.md '| `our_calls` |' '| `refused_leaves` |'; }

# ---- a public function that promises nothing, or that no claim is about

# copies the right bench's first number to the left bench
sneak() {
    own crates/export/src/of_whole.rt
    cat >>crates/export/src/of_whole.rt <<'RATTLE'

// `store` is the one of all benches.
#[unsafe(no_mangle)]
pub extern "C" fn tuppence_sneak(store: &mut [f32]) -> u32
RATTLE
    [ -z "${1:-}" ] || echo "    $1" >>crates/export/src/of_whole.rt
    cat >>crates/export/src/of_whole.rt <<'RATTLE'
{
    if store.len() == 98304 {
        store[0] = store[6144];
    }
    0
}
RATTLE
}
no_ensures() { sneak; }
store_not_told() { sneak 'ensures { result ≡ 0 }'; }
no_case_of_call() { sneak 'ensures { (result ≡ 0) × (store.new ≡ sneaked store.old) }'; }
# what stands behind a parameter that is a function is seen as well
behind_a_function() {
    own crates/checksum/src/lib.rt
    cat >>crates/checksum/src/lib.rt <<'RATTLE'

// Turns each number.
pub fn turn_each(turn: impl Fn(f32) -> f32, xs: &mut [f32]) -> u32
    ensures { result ≡ 0 }
{
    0
}
RATTLE
}
# an impl of a trait, whose functions have no contract of their own, and which says nothing of them
impl_without_promise() {
    own crates/checksum/src/lib.rt
    cat >>crates/checksum/src/lib.rt <<'RATTLE'

pub struct Sum(u32);

impl From<u32> for Sum {
    fn from(sum: u32) -> Sum {
        Sum(sum)
    }
}
RATTLE
}
# the same behind a length that is calculated
behind_a_length() {
    own crates/checksum/src/lib.rt
    cat >>crates/checksum/src/lib.rt <<'RATTLE'

// Turns each number.
pub fn turn_each(by: [f32; 8 >> 1], xs: &mut [f32]) -> u32
    ensures { result ≡ 0 }
{
    0
}
RATTLE
}
# a definition that nothing but an impl of a private type speaks of
cited_for_a_private_type() {
    own crates/checksum/specs/Checksum.antt
    printf '\nabbrev pub lonely : ℕ → ℕ\nlonely n = n\n' >>crates/checksum/specs/Checksum.antt
    own crates/checksum/src/lib.rt
    sed -i '0,/^ghost use /s//ghost use Rattle.checksum.specs.Checksum.{lonely};\n&/' crates/checksum/src/lib.rt
    cat >>crates/checksum/src/lib.rt <<'RATTLE'

struct Sum(u32);

impl From<u32> for Sum {
    ghost from_gives = { λ n sum. lonely n ≡ n };

    fn from(sum: u32) -> Sum {
        Sum(sum)
    }
}
RATTLE
}
# a definition that nothing but a ghost field of a private struct speaks of
cited_in_a_ghost_field() {
    own crates/checksum/specs/Checksum.antt
    printf '\nabbrev pub lonely : ℕ → ℕ\nlonely n = n\n' >>crates/checksum/specs/Checksum.antt
    own crates/checksum/src/lib.rt
    sed -i '0,/^ghost use /s//ghost use Rattle.checksum.specs.Checksum.{lonely};\n&/' crates/checksum/src/lib.rt
    printf '\nstruct Kept {\n    sum: u32,\n    ghost kept: { lonely sum ≡ sum },\n}\n' >>crates/checksum/src/lib.rt
}
a_requires() {
    local promise='    ensures { result ≡ crc32 before bytes.now }'
    replace crates/checksum/src/lib.rt "$promise" "    requires { before < 7 }"$'\n'"$promise"
}
not_listed() { replace docs/PROMISES.md '`crc32(before, bytes)`' '`crc32(bytes)`'; }

# ---- refusals

other_words() { replace docs/REFUSALS.md '| a layer has no neurons |' '| a layer is empty |'; }
number_not_listed() { sed -i '/^| 53 |/d' docs/REFUSALS.md; }
box_says_otherwise() {
    replace "$(grep -rl 'a layer has no neurons' host/src)" 'a layer has no neurons' 'a layer is empty'
}
one_more_in_the_enum() { replace crates/rules/src/refusal.rt '    Closed = 3,' '    Closed = 3,'$'\n''    Opened,'; }
another_number_in_the_enum() { replace crates/rules/src/refusal.rt 'Closed = 3,' 'Closed = 10,'; }
other_constant() { replace docs/REFUSALS.md '`TUPPENCE_CLOSED`' '`TUPPENCE_SHUT`'; }

# ---- lines that are too long

long_line() {
    own crates/checksum/src/lib.rt
    printf '// %s\n' "$(printf 'long %.0s' {1..40})" >>crates/checksum/src/lib.rt
}

# ---- edits that show nothing: what rt says of each was taken down from a run of it

# said EDIT WORDS: what rt says of an edit.
said() { printf 'rt: must-fail checksum/%s.edit: %s\n' "$1" "$2" >>said; }
# edit FILE WORDS: an edit that changes this file.
edit() {
    printf 'file: %s\nold: x\nnew: y\n' "$1" >crates/checksum/must-fail/bad.edit
    said bad "$2"
}
refused='refused, as it must be'
# the first time, the crate's own edits were refused for a fact
reasons() {
    local own
    if [ ! -e said ]; then
        for own in crates/checksum/must-fail/*.edit; do
            said "$(basename "$own" .edit)" "$refused: ./proofs/crc32/Answers.antt:9:13: error: \`returns\`: as printed"
        done
    fi
    tools/must_fail_reasons.sh said checksum
}
syntax_error() {
    edit specs/Checksum.antt 'BAD EDIT: the prover cannot read the edited text, so no contract was tried: ./specs/C'
}
type_error() {
    edit specs/Checksum.antt 'BAD EDIT: the prover cannot read the edited text, so no contract was tried: ./specs/Ch'
}
# (rt tells most of these as bad itself)
in_specs() {
    edit specs/Checksum.antt "$refused: ./specs/Checksum.antt:24:31: error: \`inverted\`: expected type \`ℕ\`, but this"
}
of_a_proof() {
    edit proofs/Apart.antt "$refused: ./proofs/Apart.antt:56:23: error: \`entry_told\`: expected type \`T (each 256"
}
name_gone() {
    edit src/lib.rt "$refused (only because a proof file names what the edit took away, so this says little of the"
}
not_refused() { edit src/lib.rt 'NOT REFUSED: the crate is still proved with this edit'; }
not_tried() { printf 'file: src/lib.rt\nold: x\nnew: y\n' >crates/checksum/must-fail/bad.edit; }

quick() {
    trial impossible_premise 'Apart.antt: same_end' impossible_premise definitions unstated
    trial library_word 'Apart.antt: same_end' library_word definitions unstated
    trial premise_of_a_module 'Apart.antt: same_end' premise_of_a_module definitions unstated
    trial other_statement 'refused_leaves is not a proof of what is stated there' other_statement definitions unstated
    trial no_ensures 'tuppence_sneak: it has no `ensures`' no_ensures public contracts
    trial store_not_told 'does not say what `store: &mut [f32]` holds at exit' store_not_told public contracts
    trial no_case_of_call 'tuppence_sneak: it takes a store or a record and is not a case' no_case_of_call public calls
    trial behind_a_function 'does not say what `xs: &mut [f32]` holds at exit' behind_a_function public contracts
    trial impl_without_promise '`impl From<u32> for Sum` does not say' impl_without_promise public contracts
    trial behind_a_length 'does not say what `xs: &mut [f32]` holds at exit' behind_a_length public contracts
    trial cited_for_a_private_type 'lonely' cited_for_a_private_type definitions uncited
    trial cited_in_a_ghost_field 'lonely' cited_in_a_ghost_field definitions uncited
    trial a_requires 'checksum::crc32: it has a `requires`' a_requires public contracts
    trial not_listed 'does not list `crc32(before, bytes)`' not_listed public listed
    trial other_words 'of 15' other_words refusals
    trial number_not_listed 'refuses with 53' number_not_listed refusals
    trial another_number_in_the_enum 'differ in TUPPENCE_CLOSED, 3' another_number_in_the_enum refusals
    trial one_more_in_the_enum 'differ in TUPPENCE_OPENED, 0' one_more_in_the_enum refusals
    trial box_says_otherwise 'of 15' box_says_otherwise refusals
    trial other_constant 'differ' other_constant header
    trial long_line 'shorten the new ones' long_line columns
    trial syntax_error 'BAD    checksum/bad' syntax_error reasons
    trial type_error 'BAD    checksum/bad' type_error reasons
    trial in_specs 'ITSELF checksum/bad' in_specs reasons
    trial of_a_proof 'PROOF  checksum/bad' of_a_proof reasons
    trial name_gone 'SHAPE  checksum/bad' name_gone reasons
    trial not_refused 'PASSED checksum/bad' not_refused reasons
    trial not_tried 'NOLOG  checksum/bad' not_tried reasons
}

# ---- slow ones

# Three of these edits, tried by the prover itself, in a tree of two crates.
prover() {
    local tree=$scratch/prover name
    copy_crates "$tree" crates/rules crates/checksum
    mkdir -p "$tree/tools"
    cp tools/must_fail_reasons.sh "$tree/tools"
    printf 'rules:\nchecksum: rules\n' >"$tree/crates.txt"
    rm "$tree"/crates/checksum/must-fail/*.edit
    (
        cd "$tree/crates/checksum/must-fail"
        printf 'file: specs/Checksum.antt\nold: crc32 :\nnew: crc32 : (\n' >syntax.edit
        printf 'file: specs/Checksum.antt\nold: bit_xor c 0xFFFFFFFF\nnew: bit_xor c table\n' >type.edit
        printf 'file: proofs/Apart.antt\nold: 0 ∷ 65 ∷ 195\nnew: 0 ∷ 66 ∷ 195\n' >proof.edit
    )
    # a bad edit fails it
    (cd "$tree" && rt must-fail checksum >said) || true
    cat "$tree/said"
    for name in 'BAD    checksum/syntax' 'BAD    checksum/type' 'PROOF  checksum/proof'; do
        # the tool fails, as it must; what counts is what it says
        if { "$tree/tools/must_fail_reasons.sh" "$tree/said" || true; } | grep -qF -- "$name"; then
            echo "trial prover, $name: refused"
            passed=$((passed + 1))
        else
            echo "TRIAL prover: not told as $name"
            failed=$((failed + 1))
        fi
    done
}

# A comparison without the group feed: the feature `blocks` is left out.
without_a_group() {
    local features said
    features=$(sed -n 's/^default = \[\(.*\)\]$/\1/p' oracle/Cargo.toml | tr -d '" ' | sed 's/,blocks//')
    if ! (cd oracle && cargo build --release --offline --locked --no-default-features --features "$features" \
        --bin compare --target-dir ../target/trials); then
        echo "TRIAL without_a_group: it is not built"
        failed=$((failed + 1))
    elif said=$(target/trials/release/compare 2>&1); then
        echo "TRIAL without_a_group: compare did not notice"
        failed=$((failed + 1))
    elif grep -q 'feed would not be compared' <<<"$said"; then
        echo "trial without_a_group: refused"
        passed=$((passed + 1))
    else
        echo "TRIAL without_a_group: $said"
        failed=$((failed + 1))
    fi
}

# model_list with a limit of 60,000 bytes: the program that is given 65,536 notices.
lower_limit() {
    local tree=$scratch/limit
    copy_crates "$tree" crates
    cp crates.txt "$tree"
    (cd "$tree" && replace crates/listing/src/lib.rt 'if 65536 < bytes.len() {' 'if 60000 < bytes.len() {')
    if (cd "$tree" && rt ci model_list_limit) >"$scratch/limit.log" 2>&1; then
        echo "TRIAL lower_limit: no program noticed"
        failed=$((failed + 1))
    elif ! grep -F 'is not what its file stdout has' "$scratch/limit.log"; then
        echo "TRIAL lower_limit: $(tail -n 2 "$scratch/limit.log")"
        failed=$((failed + 1))
    else
        echo "trial lower_limit: refused"
        passed=$((passed + 1))
    fi
}

mkdir -p target/tools
for tool in definitions public refusals make_header; do
    [ "target/tools/$tool" -nt "tools/$tool.rs" ] || rustc --edition 2021 -o "target/tools/$tool" "tools/$tool.rs"
done
if [ $# -lt 2 ]; then
    copy
    quick
fi
if [ "${1:-}" = --slow ]; then
    shift
    [ $# -gt 0 ] || set -- prover without_a_group lower_limit
    for slow in "$@"; do "$slow"; done
fi
echo "$passed trials refused, as they must be; $failed went wrong"
[ "$failed" = 0 ]
