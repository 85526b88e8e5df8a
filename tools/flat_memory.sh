#!/usr/bin/env bash
# The memory of `box clean -`: the most that a short stream takes, and a long one, in KiB. They must be alike within
# 512.
#   tools/flat_memory.sh [SECONDS [SECONDS [OPTION..]]]
# 60 and 3600 where none are named; an hour of both benches takes some five minutes. Options are those of `clean`, as
# --split 3600. (A folder's page lists all its dictations, so each of them takes some KiB.)
# Needs the box built (./box --version does it), Python, and Linux, whose /proc tells the most memory that a process
# had.
set -euo pipefail
root=$(cd "$(dirname "$0")/.." && pwd)
host=$root/target/host/release/tuppencehop
[ -x "$host" ] || { echo "$host is not there: ./box --version builds it"; exit 1; }
short=${1:-60} long=${2:-3600} options=("${@:3}")
scratch=$(mktemp -d)
trap 'rm -rf "$scratch"' EXIT

# The demo's dictations over and over: so many seconds of raw stereo.
sound() {
    local bytes=$(($1 * 48000 * 4))
    (while cat "$scratch/stereo.raw"; do :; done) 2>/dev/null | head -c "$bytes"
}

# The most memory of a run over so many seconds, as it is told last.
peak() {
    local most=0 now
    rm -rf "$scratch/out"
    mkfifo "$scratch/fifo"
    "$host" clean - --raw -q --model "$root/host/model/house.rnn" --out "$scratch/out" \
        ${options[@]+"${options[@]}"} <"$scratch/fifo" >"$scratch/said" &
    local pid=$!
    sound "$1" >"$scratch/fifo" &
    while now=$(sed -n 's/^VmHWM:[^0-9]*\([0-9]*\) kB$/\1/p' "/proc/$pid/status" 2>/dev/null) && [ -n "$now" ]; do
        most=$now
        sleep 0.02
    done
    wait "$pid" || exit
    rm "$scratch/fifo"
    echo "$most"
}

"$host" demo "$scratch/demo" >/dev/null
# both dictations, left and right in turn
python3 - "$scratch/demo" >"$scratch/stereo.raw" <<'EOF'
import array, sys
read = lambda side: open(f'{sys.argv[1]}/{side}-before.wav', 'rb').read()[44:]
left, right = (array.array('h', read(side)) for side in ('left', 'right'))
n = min(len(left), len(right))
both = array.array('h', bytes(4 * n))
both[0::2], both[1::2] = left[:n], right[:n]
sys.stdout.buffer.write(both.tobytes())
EOF
a=$(peak "$short")
echo "$short s: $a KiB at most"
b=$(peak "$long")
echo "$long s: $b KiB at most; $(find "$scratch/out" -name '*.wav' | wc -l) recordings"
"$host" side "$scratch/out" | tail -2
[ "$b" -lt $((a + 512)) ] || { echo "the longer one takes more"; exit 1; }
