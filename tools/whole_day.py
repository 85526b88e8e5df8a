#!/usr/bin/env python3
"""A whole day at two benches, made from a seed and cleaned in dictations, and what came of it looked at.

    tools/whole_day.py BOX OUT [HOURS [DICTATIONS [SEED]]]

BOX is the built program, OUT a new folder. At each bench so many dictations (60) are spoken within so many hours (8):
the demo's own dictation, two to five times, over its grinder, which runs all day. Every dictation must be a sealed
recording of its own that begins before its first word, no frame may be missing, and every sample is in one file. The
most memory that the program took is printed. By hand: 8 hours take some eight minutes."""
import array
import json
import pathlib
import random
import resource
import subprocess
import sys
import threading

RATE = 48_000
# where the first word of the demo's dictation begins, and where its grinder runs alone, in samples
WORD, NOISE = {"left": 74_400, "right": 74_400}, slice(2_400, 67_200)


def sound(path):
    """The samples of a recording of the demo."""
    return array.array("h", path.read_bytes()[44:])


def plan(rng, seconds, dictations, length):
    """When each dictation begins, in samples, and how often the demo's is said in it."""
    slot = seconds * RATE // dictations
    return [(i * slot + rng.randrange(slot - 5 * length - 20 * RATE), rng.randint(2, 5)) for i in range(dictations)]


def bench_day(voice, noise, when, samples):
    """A bench's whole day, a second at a time."""
    said = sorted((start, start + times * len(voice)) for start, times in when)
    at, turn = 0, 0
    while at < samples:
        out = array.array("h")
        end = min(at + RATE, samples)
        while at < end:
            while turn < len(said) and said[turn][1] <= at:
                turn += 1
            if turn < len(said) and said[turn][0] <= at:
                start, stop = said[turn]
                place = (at - start) % len(voice)
                n = min(end - at, stop - at, len(voice) - place)
                out.extend(voice[place : place + n])
            else:
                until = said[turn][0] if turn < len(said) else end
                place = at % len(noise)
                n = min(end - at, until - at, len(noise) - place)
                out.extend(noise[place : place + n])
            at += n
        yield out


def main():
    box, out = pathlib.Path(sys.argv[1]), pathlib.Path(sys.argv[2])
    hours, dictations, seed = (int(word) for word in (sys.argv[3:] + ["8", "60", "1"][len(sys.argv) - 3 :]))
    rng, seconds = random.Random(seed), hours * 3600
    subprocess.run([box, "demo", out / "demo"], check=True, stdout=subprocess.DEVNULL)
    voices = {side: sound(out / "demo" / f"{side}-before.wav") for side in WORD}
    plans = {side: plan(rng, seconds, dictations, len(voices[side])) for side in WORD}
    days = [bench_day(voices[side], voices[side][NOISE], plans[side], seconds * RATE) for side in WORD]
    words = ["clean", "-", "--raw", "--channels", "2", "--split", "8", "--start", "2026-11-16T08:00:00", "--json"]
    clean = subprocess.Popen([box, *words, "--out", out / "day"], stdin=subprocess.PIPE, stdout=subprocess.PIPE)
    told = []
    reader = threading.Thread(target=lambda: told.extend(json.loads(line) for line in clean.stdout))
    reader.start()
    for left, right in zip(*days):
        both = array.array("h", bytes(4 * len(left)))
        both[0::2], both[1::2] = left, right
        clean.stdin.write(both.tobytes())
    clean.stdin.close()
    reader.join()
    if clean.wait() != 0:
        sys.exit("the box failed")
    look(box, out, plans, told, seconds)


def look(box, out, plans, told, seconds):
    """What came of the day, against what was said."""
    bad = 0
    for side, when in plans.items():
        ours = sorted((one for one in told if one["side"] == side), key=lambda one: one["first"])
        starts = [0 if one["first"] == 0 else (one["first"] - 1) * 480 for one in ours]
        late = 0
        for begun, _ in when:
            word = begun + WORD[side]
            # the last file that begins before the word must begin after the dictation before it
            late += not any(start <= word and start > begun - 20 * RATE for start in starts) and begun != when[0][0]
        whole = sum(one["seconds"] for one in ours)
        print(f"{side}: {len(ours)} dictations of {len(when)}, {whole:.2f} s of {seconds}, {late} begin too late")
        bad += len(ours) != len(when) or abs(whole - seconds) > 0.01 or late
    sealed = subprocess.run([box, "side", out / "day"], capture_output=True, text=True)
    lines = sealed.stdout.splitlines()
    print(f"side: status {sealed.returncode}, {sum('sealed' in line for line in lines)} sealed")
    print(f"memory: {resource.getrusage(resource.RUSAGE_CHILDREN).ru_maxrss} KiB at most")
    if bad or sealed.returncode != 0:
        sys.exit("not as it should be")


main()
