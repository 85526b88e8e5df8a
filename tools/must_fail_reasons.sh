#!/usr/bin/env bash
# Says why each must-fail edit was refused: the first error of its check, as `rt ci` and `rt must-fail` tell it on the
# edit's line. Give it what one of them said: tools/must_fail_reasons.sh FILE [CRATE..]; with names of crates only their
# edits. Exit status 1 if an edit shows nothing, was not tried (NOLOG) or not refused (PASSED). An edit shows nothing if
#   BAD     it can't be applied, or what it makes can't be read;
#   PROOF   it changes a proof: any change of a proof is refused, whatever it means;
#   ITSELF  the first error is in a file that it changes, or in specs/, as a syntax error or a wrong type is: it is
#           wrong by itself, and no fact was asked;
#   SHAPE   a name that the proofs cite is gone, or the parts of the code moved: the proof no longer fits the text;
#   LIMIT   the checker gave up before it could tell.
# `fact` is no verdict: read the line.
set -euo pipefail
said=$(realpath "${1:?tools/must_fail_reasons.sh FILE [CRATE..], with what rt ci said}")
shift
cd "$(dirname "$0")/.."
shape='only because a proof file names what the edit took away'
shape+='|can be named from here|has no field|has no such|no such (file|module)|not in scope|not found|unbound name'
shape+='|not a constructor|too (few|many) arguments'
# what the checker says, at the function itself, of a fact that it can't show without a proof file
unproved='it is not proved that'
edits=0 bad=0
shopt -s nullglob
for edit in crates/*/must-fail/*.edit; do
    crate=${edit#crates/} crate=${crate%%/*} name=$(basename "$edit" .edit)
    if [ $# -gt 0 ] && [[ " $* " != *" $crate "* ]]; then continue; fi
    edits=$((edits + 1))
    changed=$(sed -n 's/^file: *//p' "$edit")
    line=$(grep -F -- "rt: must-fail $crate/$name.edit: " "$said" | tail -n 1) || line=''
    line=${line#*.edit: } first='' at=''
    # the file of the first error, by its name within its crate
    if [[ $line = 'refused, as it must be: '* ]]; then
        first=${line#refused, as it must be: } first=${first#note: } first=${first#./}
        at=${first%%:*}
    fi
    kind=fact
    if [[ $'\n'$changed == *$'\n'proofs/* ]]; then kind=PROOF
    elif [ -z "$line" ]; then kind=NOLOG first='it was not tried'
    elif [[ $line == 'BAD EDIT'* ]]; then kind=BAD first=$line
    elif [[ $line == 'NOT REFUSED'* ]]; then kind=PASSED first=$line
    elif [[ $line != refused* ]]; then kind=NOLOG first=$line
    elif [[ $line =~ $shape ]]; then kind=SHAPE first=$line
    elif [[ $line = *'only by a limit'* ]]; then kind=LIMIT first=$line
    elif [ -z "$first" ]; then kind=SHAPE first='no error is told'
    elif [[ $first == *"$unproved"* ]]; then kind=fact
    elif [[ $at == specs/* ]] || grep -qxF -- "$at" <<<"$changed"; then kind=ITSELF; fi
    [ "$kind" = fact ] || bad=$((bad + 1))
    printf '%-6s %s/%s: %.200s\n' "$kind" "$crate" "$name" "$first"
done
echo "$edits edits looked at, $bad of them show nothing"
[ "$bad" = 0 ]
