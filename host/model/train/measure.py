#!/usr/bin/python3
"""Measures house models on voices and noises that no model was trained on: `measure.py DIR [NAME=MODEL]... [OPTIONS]`.

  --rnnoise FILE   RNNoise's published weights, if you have a file of them
  --words N        so many first words (300)
  --seed N         another seed makes other sentences and noises (1)
  --box FILE       the box (target/host/release/tuppencehop)
  --without LIST   rows that are not wanted, such as noisy,house.rnn

Today's house model and the noisy recording are always among what is compared. Everything goes through `box clean`.
The table is printed, and DIR/figures.json has the same figures. Needs numpy, scipy, sox, flite, festival with
festvox-hi-nsk, festival-hi, festvox-italp16k and festvox-czech-machac, espeak-ng, python3-pocketsphinx and
pocketsphinx-en-us. What each column says is in README.md.
"""
import argparse, json, os, pickle, shutil, subprocess, wave

import numpy as np
from scipy.signal import butter, lfilter, resample_poly, sosfilt

RATE, FRAME = 48000, 480
HERE = os.path.dirname(os.path.abspath(__file__))
ROOT = os.path.join(HERE, "../../..")
LEVEL = 32768 * 10 ** (-28 / 20)         # of a voice where it speaks
RATIOS, WORD_RATIOS = (0, 5, 10), (5, 10, 15)            # decibels of voice over noise: sentences, first words
LEADS = (0, 0.1, 0.3, 1)                 # seconds of noise before the first word

# Whose sentences: two people and a synthesiser.
SENTENCES = [("flite", "awb"), ("festival", "hindi_NSK_diphone"), ("espeak", "en-gb-x-rp+f3")]
SIDES = ("left", "right")
# Who says the first word, and how left and right are written for them.
ENGLISH = ("Left.", "Right.")
PEOPLE = [("flite", "awb", ENGLISH), ("festival", "hindi_NSK_diphone", ("लेफ्ट।", "राइट।")),
          ("festival", "lp_diphone", ("left.", "rait.")), ("festival", "czech_machac", ("left.", "rajt."))]
SPEAKERS = 2 * PEOPLE + [("espeak", v, ENGLISH) for v in (
        "en-gb-x-gbclan+Hugo", "en-gb+Alicia", "en-gb+Mike", "en-us-nyc+sandro")]
WORDS = """
bolt carpet candle bread shoe patient ankle fitting plaster glue stitch buckle strap tongue lace welt insert wedge
pad support pressure walking standing Monday Friday deeper shallow wider harder smooth polish trim grind glove apron
the a of and with for at to is was has will must should please note that then now here there
""".split()

# ---- what is said

def say(engine, voice, text, speed, stretch, file):
    """The voice at 48,000 samples a second, played `speed` times as fast."""
    command = {
        "flite": ["flite", "-voice", voice, "--setf", f"duration_stretch={stretch:.2f}", "-t", text, "-o", file],
        "festival": ["text2wave", "-eval", f"(voice_{voice})", "-eval",
                f"(Parameter.set 'Duration_Stretch {stretch:.2f})", "-o", file],
        "espeak": ["espeak-ng", "-v", voice, "-s", str(int(165 / stretch)), "-w", file, text],
    }[engine]
    subprocess.run(command, input=text.encode() if engine == "festival" else None, check=True,
            stdout=subprocess.DEVNULL, stderr=subprocess.DEVNULL)
    raw = subprocess.run(["sox", "-V1", "-D", file, "-t", "f32", "-c", "1", "-", "gain", "-6", "speed", f"{speed:.4f}",
            "rate", "-v", str(RATE)], check=True, stdout=subprocess.PIPE).stdout
    os.remove(file)
    return np.frombuffer(raw, np.float32).astype(float)

def powers(x):
    return (x[:len(x) // FRAME * FRAME].reshape(-1, FRAME) ** 2).mean(1)

def levelled(x):
    p = powers(x)
    return x * (LEVEL / np.sqrt(p[p > p.max() * 1e-3].mean()))

def trimmed(x):
    """Without the quiet before and after it, and of the usual level."""
    loud = np.flatnonzero(np.abs(x) > 0.02 * np.abs(x).max())
    return levelled(x[max(0, loud[0] - 48):loud[-1] + 48])

def sentence(rng, voice):
    if voice.startswith("hindi"):
        consonants, vowels = list("कगचजटडतदनपबमयरलवसह"), ["", "ा", "ि", "ी", "ु", "े", "ो"]
        word = lambda: "".join(rng.choice(consonants) + rng.choice(vowels) for _ in range(rng.integers(2, 4)))
        return " ".join(word() for _ in range(rng.integers(3, 8))) + "।"
    return " ".join(rng.choice(WORDS, rng.integers(4, 10))).capitalize() + "."

def talk(rng, engine, voice, seconds, directory, lead=0.5):
    """Sentences with pauses between them."""
    x, at, speed = np.zeros(int(seconds * RATE)), int(lead * RATE), np.exp(rng.uniform(-0.06, 0.06))
    while at < len(x):
        text = sentence(rng, voice)
        u = trimmed(say(engine, voice, text, speed, rng.uniform(0.9, 1.15), f"{directory}/_.wav"))
        x[at:at + len(u)] += u[:len(x) - at]
        at += len(u) + int(RATE * rng.uniform(0.5, 1.5))
    return x

# ---- noises of power 1; the grinder is another one than make_material's

def grinder(rng, n):
    """A wheel that strikes once or more in a turn: pulses through the resonances of its housing, louder and slower
    while something is held against it, and the hiss of that."""
    walk = np.cumsum(rng.standard_normal(n // 480 + 2))
    walk = np.interp(np.arange(n), np.arange(len(walk)) * 480, walk / max(1, np.abs(walk).max()))
    held = np.interp(np.arange(n), np.linspace(0, n, 3 + n // RATE * 2), rng.random(3 + n // RATE * 2)) ** 2
    turns = np.cumsum(rng.uniform(45, 260) * (1 + 0.03 * walk - 0.12 * held)) / RATE
    strike = np.diff(np.floor(turns), prepend=0) * rng.uniform(0.6, 1.4, n)
    body = sum(rng.uniform(0.3, 1) * sosfilt(butter(1, [f, f * rng.uniform(1.05, 1.5)], "bandpass", fs=RATE,
            output="sos"), strike) for f in np.exp(rng.uniform(np.log(90), np.log(7000), 6)))
    hiss = sosfilt(butter(1, [rng.uniform(500, 2500), rng.uniform(5000, 14000)], "bandpass", fs=RATE, output="sos"),
            rng.standard_normal(n))
    whine = np.sin(2 * np.pi * turns * rng.integers(7, 23)) * rng.uniform(0, 0.7)
    x = body / body.std() * (0.7 + held) + whine + rng.uniform(0.3, 1.2) * hiss / hiss.std() * (0.15 + held)
    return x / x.std()

def white(rng, n):
    return rng.standard_normal(n)

def pink(rng, n):
    f = np.maximum(np.fft.rfftfreq(n, 1 / RATE), 20)
    x = np.fft.irfft(np.fft.rfft(rng.standard_normal(n)) / np.sqrt(f), n)
    return x / x.std()

NOISES = [grinder, white, pink]

def over(noise, clean, ratio):
    """Both as 16 bits, softer if they would be too loud."""
    both = clean + noise * LEVEL * 10 ** (-ratio / 20)
    down = min(1, 32000 / np.abs(both).max())
    return clean * down, np.rint(both * down)

# ---- through the box

def filtered(x):
    """What the box's high pass makes of it."""
    return lfilter([1, -2, 1], [1, -1.99599, 0.99600], x)

def cleaned(box, model, recordings, directory):
    """Of each recording what the box makes of it, which is not behind it."""
    shutil.rmtree(directory, ignore_errors=True)
    os.makedirs(directory + "/in")
    names = [f"{i:04}-left" for i in range(len(recordings))]
    for name, x in zip(names, recordings):
        with wave.open(f"{directory}/in/{name}.wav", "wb") as f:
            f.setparams((1, 2, RATE, 0, "NONE", ""))
            f.writeframes(np.concatenate([x, np.zeros(FRAME)]).astype("<i2").tobytes())
    for k in range(0, len(names), 100):
        subprocess.run([box, "clean", "-q", *[f"{directory}/in/{n}.wav" for n in names[k:k + 100]], "--model", model,
                "--out", f"{directory}/out{k}"], check=True)
    found = []
    for k, (name, x) in enumerate(zip(names, recordings)):
        with wave.open(f"{directory}/out{k // 100 * 100}/{name}/left.wav") as f:
            y = np.frombuffer(f.readframes(f.getnframes()), "<i2").astype(float)
        found.append(y[:len(x)])
    shutil.rmtree(directory)
    return found

# ---- measures

def si_sdr(clean, x):
    part = clean * (x @ clean) / (clean @ clean)
    return 10 * np.log10((part @ part) / ((x - part) @ (x - part) + 1e-9))

def bands_of_thirds():
    f, centres = np.fft.rfftfreq(512, 1 / 10000), 150 * 2 ** (np.arange(15) / 3)
    nearest = lambda x: np.argmin((f - x) ** 2)
    out = np.zeros((15, len(f)))
    for i, c in enumerate(centres):
        out[i, nearest(c / 2 ** (1 / 6)):nearest(c * 2 ** (1 / 6))] = 1
    return out

THIRDS = bands_of_thirds()

def stoi(clean, x):
    """Short-time objective intelligibility (Taal and others, 2011)."""
    clean, x = resample_poly(clean, 5, 24), resample_poly(x, 5, 24)
    window = np.hanning(258)[1:-1]
    cut = lambda y: np.array([y[i:i + 256] * window for i in range(0, len(y) - 256, 128)])
    a, b = cut(clean), cut(x)
    loud = 20 * np.log10(np.linalg.norm(a, axis=1) + 1e-9)
    def joined(frames):
        y = np.zeros(128 * (len(frames) + 1))
        for i, frame in enumerate(frames):
            y[128 * i:128 * i + 256] += frame
        return y
    keep = loud > loud.max() - 40
    a, b = cut(joined(a[keep])), cut(joined(b[keep]))
    a, b = (np.sqrt(THIRDS @ (np.abs(np.fft.rfft(y, 512)) ** 2).T) for y in (a, b))
    a, b = (np.lib.stride_tricks.sliding_window_view(y, 30, axis=1) for y in (a, b))
    size = lambda y: np.linalg.norm(y, axis=2, keepdims=True) + 1e-9
    b = np.minimum(b * size(a) / size(b), a * (1 + 10 ** (15 / 20)))
    a, b = (y - y.mean(2, keepdims=True) for y in (a, b))
    return (a / size(a) * b / size(b)).sum(2).mean()

def decibels(x, y):
    return 10 * np.log10((x + 1e-9) / (y + 1e-9))

def levels(clean, noisy, x):
    """Of pauses against the noisy recording, a tenth of a second and more from any voice; of the voice against the
    clean one."""
    p = powers(clean)
    speaks = p > LEVEL ** 2 * 1e-3
    near = np.convolve(p > LEVEL ** 2 * 1e-6, np.ones(21), "same") > 0
    q, r = powers(x), powers(noisy)
    return decibels(q[~near].mean(), r[~near].mean()), decibels(q[speaks].mean(), p[speaks].mean())

def come_through(clean, x):
    """How much of a piece of the voice is in the result, in decibels: its share by least squares, at least -30."""
    return 20 * np.log10(max((x @ clean) / (clean @ clean), 10 ** -1.5))

class Recogniser:
    """pocketsphinx that knows two words. What it makes of one recording does not depend on the one before."""
    def __init__(self, directory):
        from pocketsphinx import Decoder
        model, grammar = "/usr/share/pocketsphinx/model/en-us/", f"{directory}/side.gram"
        with open(grammar, "w") as f:
            f.write("#JSGF V1.0;\ngrammar side;\npublic <side> = left | right;\n")
        config = Decoder.default_config()
        for name, value in (("-hmm", model + "en-us"), ("-dict", model + "cmudict-en-us.dict"), ("-jsgf", grammar),
                ("-cmn", "batch"), ("-logfn", "/dev/null")):
            config.set_string(name, value)
        self.decoder = Decoder(config)

    def hears(self, x):
        """left, right or nothing."""
        x = resample_poly(x, 1, 3)
        self.decoder.start_utt()
        self.decoder.process_raw(np.clip(x, -32767, 32767).astype("<i2").tobytes(), False, True)
        self.decoder.end_utt()
        said = self.decoder.hyp()
        return said.hypstr if said else None

# ---- the recordings

def mixes(seed, directory):
    """Clean and noisy: each voice over each noise at each ratio, 20 s each."""
    out, rng = [], np.random.default_rng([seed, 1])
    for engine, voice in SENTENCES:
        clean = talk(rng, engine, voice, 20, directory)
        for noise in NOISES:
            n = noise(rng, len(clean))
            out += [over(n, clean, ratio) for ratio in RATIOS]
    return out

def first_words(seed, count, directory, recogniser):
    """Clean and noisy, where the word begins, and its side. A second of the grinder follows it. The recogniser has each
    word right without the grinder: where it has not, the word is said in another way."""
    out, rng = [], np.random.default_rng([seed, 2])
    while len(out) < count:
        engine, voice, written = SPEAKERS[len(out) // 2 % len(SPEAKERS)]
        side = len(out) % 2
        word = trimmed(say(engine, voice, written[side], np.exp(rng.uniform(-0.12, 0.12)), rng.uniform(0.85, 1.3),
                f"{directory}/_.wav"))
        at = int(RATE * rng.choice(LEADS))
        clean = np.concatenate([np.zeros(at), word, np.zeros(RATE)])
        clean, noisy = over(grinder(rng, len(clean) + RATE)[RATE:], clean, rng.choice(WORD_RATIOS))
        if recogniser.hears(clean) == SIDES[side]:
            out.append((clean, noisy, at, SIDES[side]))
    return out

def beginnings(seed, directory):
    """Clean and noisy: three seconds that begin with a voice, and five seconds that go before them."""
    out, rng = [], np.random.default_rng([seed, 3])
    for engine, voice in SENTENCES:
        for noise in NOISES:
            for ratio in RATIOS:
                before, clean = talk(rng, engine, voice, 5, directory), talk(rng, engine, voice, 3, directory, 0)
                clean = np.concatenate([before, clean])
                out.append(over(noise(rng, len(clean)), clean, ratio))
    return out

# ---- the table

def of_mixes(data, results):
    rows = [(stoi(filtered(c), x), si_sdr(filtered(c), x), *levels(filtered(c), filtered(y), x))
            for (c, y), x in zip(data, results)]
    return dict(zip(("STOI", "SI-SDR", "pauses", "voice"), np.mean(rows, 0)))

def of_words(data, results, recogniser):
    heard = [recogniser.hears(x) for x in results]
    through = lambda ms: np.mean([come_through(filtered(c)[at:at + 48 * ms], x[at:at + 48 * ms])
            for (c, _, at, _), x in zip(data, results)])
    wrong = sum(h is not None and h != side for h, (_, _, _, side) in zip(heard, data))
    right = sum(h == side for h, (_, _, _, side) in zip(heard, data))
    return {"first 50 ms": through(50), "first 100 ms": through(100), "right word": 100 * right / len(data),
            "wrong side": wrong, "nothing": len(data) - right - wrong}

def of_beginnings(data, clean):
    """STOI of the three seconds: alone, behind half a second of their own beginning reversed, behind five seconds."""
    cut, half = 5 * RATE, RATE // 2
    ways = {"cold": ([y[cut:] for _, y in data], 0), "half a second reversed":
            ([np.concatenate([y[cut:cut + half][::-1], y[cut:]]) for _, y in data], half),
            "after 5 s": ([y for _, y in data], cut)}
    return {way: np.mean([stoi(filtered(c)[cut:], x[drop:]) for (c, _), x in zip(data, clean(given))])
            for way, (given, drop) in ways.items()}

def recordings(seed, words, directory, recogniser):
    """All of them; made once, and kept in the folder."""
    file = f"{directory}/recordings-{seed}-{words}.pickle"
    if not os.path.exists(file):
        made = mixes(seed, directory), first_words(seed, words, directory, recogniser), beginnings(seed, directory)
        with open(file, "wb") as f:
            pickle.dump(made, f)
    with open(file, "rb") as f:
        return pickle.load(f)

if __name__ == "__main__":
    parser = argparse.ArgumentParser(description=__doc__, formatter_class=argparse.RawDescriptionHelpFormatter)
    parser.add_argument("dir")
    parser.add_argument("models", nargs="*")
    parser.add_argument("--rnnoise")
    parser.add_argument("--words", type=int, default=300)
    parser.add_argument("--seed", type=int, default=1)
    parser.add_argument("--box", default=f"{ROOT}/target/host/release/tuppencehop")
    parser.add_argument("--without", default="")
    given = parser.parse_args()
    os.makedirs(given.dir, exist_ok=True)
    models = {"house.rnn": f"{HERE}/../house.rnn"} | dict(m.split("=", 1) for m in given.models)
    if given.rnnoise:
        models["RNNoise"] = given.rnnoise
    through = lambda model: lambda noisy: cleaned(given.box, model, noisy, f"{given.dir}/through-{os.getpid()}")
    recogniser, figures = Recogniser(given.dir), {}
    data, words, starts = recordings(given.seed, given.words, given.dir, recogniser)
    voices = [np.rint(data[i][0]) for i in range(0, len(data), len(data) // len(SENTENCES))]
    print(f"{len(data)} mixes, {len(words)} first words, {len(starts)} beginnings, seed {given.seed}\n", flush=True)
    columns = ["STOI", "SI-SDR", "pauses", "voice", "clean", "first 50 ms", "first 100 ms", "right word", "wrong side",
               "nothing", "cold", "half a second reversed", "after 5 s"]
    print("| | " + " | ".join(columns) + " |\n|" + "---|" * (len(columns) + 1))
    rows = {"noisy": None, **models}
    for name, model in [(n, m) for n, m in rows.items() if n not in given.without.split(",")]:
        clean = through(model) if model else lambda noisy: [filtered(y) for y in noisy]
        row = of_mixes(data, clean([y for _, y in data])) | of_beginnings(starts, clean)
        row |= of_words(words, clean([y for _, y, _, _ in words]), recogniser)
        if model:
            row["clean"] = np.mean([si_sdr(filtered(c), x) for c, x in zip(voices, clean(voices))])
        figures[name] = {k: round(float(v), 4) for k, v in row.items()}
        shown = lambda c: "–" if c not in row else f"{row[c]:.3f}" if c in ("STOI", *columns[-3:]) else str(
                row[c]) if c in ("wrong side", "nothing") else f"{row[c]:.1f}"
        print(f"| {name} | " + " | ".join(map(shown, columns)) + " |", flush=True)
        json.dump(figures, open(f"{given.dir}/figures.json", "w"), indent=1)
