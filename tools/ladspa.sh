#!/usr/bin/env bash
# The LADSPA plugin as its users run it, beside `box clean`: tools/ladspa.sh. What LADSPA's own applyplugin, ffmpeg and
# sox write must be what the box writes, sample for sample, 960 samples later; and so must both channels of a stereo
# file. Needs Debian's ladspa-sdk, ffmpeg, sox and python3; the box and the plugin are built first. Not part of the
# gate, which has tests of the plugin in bindings/ladspa.
set -euo pipefail
cd "$(dirname "$0")/.."
root=$PWD
for program in analyseplugin applyplugin ffmpeg sox python3; do
    command -v "$program" >/dev/null && continue
    echo "$program is missing: apt-get install ladspa-sdk ffmpeg sox python3"
    exit 1
done
./box --version >/dev/null
(cd bindings/ladspa && cargo build --quiet --release --offline --locked --target-dir ../../target/ladspa)
box=$root/target/host/release/tuppencehop
scratch=$(mktemp -d)
trap 'rm -rf "$scratch"' EXIT
cd "$scratch"
cp "$root/target/ladspa/release/libtuppence_ladspa.so" tuppence_ladspa.so
export LADSPA_PATH=$scratch

analyseplugin ./tuppence_ladspa.so | grep -c 'Plugin Label: "tuppence_bench' | grep -qx 2
"$box" demo demo >/dev/null
sox demo/left-before.wav left.wav
sox demo/right-before.wav right.wav trim 0 6
sox left.wav left-6.wav trim 0 6
sox -M left-6.wav right.wav both.wav
"$box" clean --left left.wav --out one -q
"$box" clean --both both.wav --out two -q

applyplugin left.wav by-applyplugin.wav tuppence_ladspa.so tuppence_bench
ffmpeg -v error -i left.wav -af ladspa=file=tuppence_ladspa:plugin=tuppence_bench by-ffmpeg.wav
sox -D left.wav by-sox.wav ladspa tuppence_ladspa tuppence_bench 0
ffmpeg -v error -i both.wav -af ladspa=file=tuppence_ladspa:plugin=tuppence_benches by-ffmpeg-both.wav
python3 - <<'END'
import array
import wave

LATENCY = 960


def samples(path):
    with wave.open(path) as file:
        return array.array("h", file.readframes(file.getnframes()))


def compare(name, got, wanted):
    assert got[LATENCY:] == wanted[: len(got) - LATENCY] and len(got) > 48000, name
    print(f"{name}: {len(got) - LATENCY} samples are the box's")


for program in ("applyplugin", "ffmpeg", "sox"):
    compare(program, samples(f"by-{program}.wav"), samples("one/left.wav"))
both = samples("by-ffmpeg-both.wav")
for channel, side in enumerate(("left", "right")):
    compare(f"ffmpeg, {side} of two", both[channel::2], samples(f"two/{side}.wav"))
END
