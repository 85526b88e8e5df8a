#!/usr/bin/env bash
# Counts the lines of code and comments with more than 120 columns, and fails if there are more than tools/columns.txt
# says. That number is to go down to 0: lower it when you have shortened lines. Not counted are the pages of docs/,
# where a row of a table may be as wide as it needs, and the `old:` and `new:` of a must-fail edit, which are one line
# each by the format. --list prints the file and the number of each such line, and --count how many there are.
set -euo pipefail
cd "$(dirname "$0")/.."
list=$(mktemp)
trap 'rm -f "$list"' EXIT
# a column is a character, whatever its bytes
export LC_ALL=C.UTF-8
find crates host oracle bindings tools .ci -regextype posix-extended -type f \
    \( -name '*.rt' -o -name '*.antt' -o -name '*.edit' -o -name '*.rs' -o -name '*.sh' -o -name '*.py' -o -name '*.c' \
    -o -name '*.h' -o -name '*.js' -o -name '*.css' -o -path '.ci/run' \) \
    -not -path '*/target/*' -not -regex 'crates/[^/]+/out/.*' -print0 |
    LC_ALL=C sort -z | xargs -0 grep -nHE '^.{121}' | grep -vE '^[^:]*\.edit:[0-9]*:(old|new):' |
    cut -d : -f 1,2 >"$list" || true
lines=$(wc -l <"$list")
if [ "${1:-}" = --count ]; then echo "$lines"; exit; fi
if [ "${1:-}" = --list ]; then cat "$list"; fi
may=$(cat tools/columns.txt)
echo "$lines lines have more than 120 columns; at most $may may"
if [ "$lines" -gt "$may" ]; then
    echo "shorten the new ones (tools/columns.sh --list shows all)"
    exit 1
fi
if [ "$lines" -lt "$may" ]; then echo "fewer than before: write $lines into tools/columns.txt"; fi
