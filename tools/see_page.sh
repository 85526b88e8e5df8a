#!/usr/bin/env bash
# The page in a browser, on a desk and on a phone, light and dark: tools/see_page.sh FOLDER [MINUTES]
# Writes into FOLDER a PNG of each (demo-desk-light.png and so on): of the demo, of a recording of so many minutes, 20
# where none are named, and of one that breaks off and is silent on the left, and of a day. It looks whether text has 12
# px, nothing is wider than the screen and the players are in sight, and presses in the picture and on keys to hear from
# there; exit status 1 where something is not so. Not part of the gate.
# Needs the box built (./box --version does it), Python, and Chromium, which Debian has as the package `chromium`; with
# `pngquant` the PNGs are small.
set -euo pipefail
root=$(cd "$(dirname "$0")/.." && pwd)
host=$root/target/host/release/tuppencehop model=$root/host/model/house.rnn
out=${1:?tools/see_page.sh FOLDER [MINUTES]} minutes=${2:-20}
browser=$(command -v chromium || command -v chromium-browser || command -v google-chrome) ||
    { echo "no Chromium is at hand: apt-get install chromium"; exit 1; }
[ -x "$host" ] || { echo "$host is not there: ./box --version builds it"; exit 1; }
scratch=$(mktemp -d)
trap 'rm -rf "$scratch"' EXIT
mkdir -p "$out"

"$host" demo "$scratch/demo" >/dev/null
python3 "$root/tools/see_page.py" sound "$scratch/demo" $((60 * minutes)) |
    "$host" clean - --raw -q --model "$model" --out "$scratch/long" >/dev/null
python3 "$root/tools/see_page.py" broken "$scratch/demo" >"$scratch/broken.wav"
"$host" clean - -q --model "$model" --out "$scratch/broken" <"$scratch/broken.wav" >"$scratch/said" 2>&1 && {
    echo "a broken stream was taken"
    exit 1
}
python3 "$root/tools/see_page.py" look "$browser" "$scratch/profile" "$out" \
    "demo=$scratch/demo/index.html" "long=$scratch/long/index.html" "broken=$scratch/broken/index.html"
# the page of a day: the same in dictations, with the originals
python3 "$root/tools/see_page.py" sound "$scratch/demo" 120 |
    "$host" clean - --raw -q --split 1.5 --start 2026-11-16T09:30:12 --keep-before --out "$scratch/day" >/dev/null
python3 "$root/tools/see_page.py" day "$browser" "$scratch/profile-day" "$out" "$scratch/day/index.html"
if command -v pngquant >/dev/null; then
    for png in "$out"/{demo,long,broken,day}-{desk,phone}-{light,dark}.png; do
        pngquant --force --nofs --ext .png 24 "$png"
    done
fi
