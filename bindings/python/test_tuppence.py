"""The Python module beside itself and, where the box is built, beside `box clean`."""

import array
import pathlib
import random
import subprocess
import tempfile
import unittest
import wave
import zlib

import tuppence

ROOT = pathlib.Path(__file__).resolve().parent.parent.parent
BOX = ROOT / "target" / "host" / "release" / "tuppencehop"


def sound(seconds=0.5, seed=1):
    """Seeded noise with a tone."""
    dice = random.Random(seed)
    return [dice.randrange(-1000, 1000) + (3000 if i // 120 % 2 else -3000) for i in range(int(48000 * seconds))]


class Clean(unittest.TestCase):
    def test_as_many_samples_and_softer(self):
        samples = sound()
        cleaned = tuppence.clean(samples)
        self.assertEqual(len(cleaned), len(samples))
        self.assertLess(sum(x * x for x in cleaned[24000 // 2 :]), sum(x * x for x in samples[24000 // 2 :]))

    def test_any_sequence_gives_the_same(self):
        samples = sound(0.2)
        wanted = tuppence.clean(samples)
        self.assertEqual(tuppence.clean(array.array("h", samples)), wanted)
        self.assertEqual(tuppence.clean(tuple(samples)), wanted)

    def test_numpy_gives_numpy(self):
        try:
            import numpy
        except ImportError:
            self.skipTest("numpy is not installed")
        samples = sound(0.2)
        cleaned = tuppence.clean(numpy.array(samples, dtype=numpy.int16))
        self.assertEqual(cleaned.dtype, numpy.int16)
        self.assertEqual(list(cleaned), list(tuppence.clean(samples)))

    def test_nothing_gives_nothing(self):
        self.assertEqual(len(tuppence.clean([])), 0)

    def test_is_what_the_box_writes(self):
        if not BOX.exists():
            self.skipTest("the box is not built")
        samples = sound(0.7, seed=2)
        with tempfile.TemporaryDirectory() as folder:
            path = pathlib.Path(folder)
            with wave.open(str(path / "left.wav"), "wb") as file:
                file.setnchannels(1)
                file.setsampwidth(2)
                file.setframerate(48000)
                file.writeframes(array.array("h", samples).tobytes())
            subprocess.run([BOX, "clean", "--left", path / "left.wav", "--out", path / "out", "-q"], check=True,
                           stdout=subprocess.DEVNULL, stderr=subprocess.DEVNULL)
            with wave.open(str(path / "out" / "left.wav"), "rb") as file:
                written = array.array("h", file.readframes(file.getnframes()))
        self.assertEqual(tuppence.clean(samples), written)


class Benches(unittest.TestCase):
    def test_pieces_make_no_difference(self):
        samples, dice = sound(0.3), random.Random(3)
        one, other = tuppence.Bench(0), tuppence.Bench(1)
        wanted, got, at = [], [], 0
        for start in range(0, len(samples), 4096):
            wanted += one.take(samples[start : start + 4096])[0]
        while at < len(samples):
            size = dice.randrange(1, 4097)
            cleaned, answers = other.take(samples[at : at + size])
            self.assertEqual(len(cleaned), tuppence.FRAME * len(answers))
            got, at = got + list(cleaned), at + size
        self.assertEqual(wanted, got)
        self.assertEqual(one.frames, len(samples) // tuppence.FRAME)

    def test_refusals_have_their_numbers(self):
        bench = tuppence.Bench()
        for samples, number in [([], 5), ([0] * 4097, 5), ([float("nan")], 9), ([40000], 9)]:
            with self.assertRaises(tuppence.Refused) as refused:
                bench.take(samples)
            self.assertEqual(refused.exception.number, number)
        with self.assertRaises(tuppence.Refused) as refused:
            tuppence.Bench(16)
        self.assertEqual(refused.exception.number, 1)
        with self.assertRaises(tuppence.Refused) as refused:
            tuppence.Bench(model=b"no model")
        self.assertEqual(refused.exception.number % 256, 7)


def recording(audio, side, heard):
    """What the box writes for a recording, byte by byte."""

    def number(n, size=4):
        return n.to_bytes(size, "little")

    def seal(word, long, short):
        said = word + (b"LEFT", b"RGHT")[side] + number(long, 8) + number(short)
        return said + number(zlib.crc32(said))

    records = b"".join(number(i) + bytes([h, side, 0, 0]) for i, h in enumerate(heard))
    trailer = number(len(records)) + number(len(heard)) + bytes([side, 0, 0, 0]) + number(sum(records))
    contents = seal(b"TUPP", len(audio), zlib.crc32(audio)) + records + trailer
    after = b"side" + number(len(contents)) + contents
    form = b"fmt " + number(16) + bytes([1, 0, 1, 0]) + number(48000) + number(96000) + bytes([2, 0, 16, 0])
    front = b"side" + number(24) + seal(b"TUPB", 0, 0)
    riff = b"WAVE" + form + front + b"data" + number(len(audio)) + audio + after
    return b"RIFF" + number(len(riff)) + riff


class Sides(unittest.TestCase):
    """Recordings as the box writes them, and damaged ones."""

    def setUp(self):
        self.folder = tempfile.TemporaryDirectory()
        self.addCleanup(self.folder.cleanup)
        self.path = pathlib.Path(self.folder.name) / "recording.wav"

    def side_of(self, file):
        self.path.write_bytes(file)
        return tuppence.side(self.path)

    def test_each_side_is_reported(self):
        audio = array.array("h", sound(0.02)).tobytes()
        for number, name in enumerate(("left", "right")):
            self.assertEqual(self.side_of(recording(audio, number, [1, 0, 1])), name)

    def test_no_damaged_file_is_reported(self):
        file = recording(array.array("h", [7] * 100).tobytes(), 1, [1, 1])
        self.assertEqual(self.side_of(file), "right")
        places = [(at, bit) for at in range(len(file)) for bit in range(8)]
        damaged = [file[:at] + bytes([file[at] ^ 1 << bit]) + file[at + 1 :] for at, bit in places]
        told = [file for file in damaged if self.is_told(file)]
        self.assertEqual(told, [])
        for cut in list(range(0, len(file), 7)) + [len(file) - 1]:
            self.assertFalse(self.is_told(file[:cut]), cut)
        self.assertFalse(self.is_told(file + b"x"))

    def is_told(self, file):
        try:
            self.side_of(file)
            return True
        except tuppence.NotSealed:
            return False

    def test_the_box_and_python_agree(self):
        if not BOX.exists():
            self.skipTest("the box is not built")
        with tempfile.TemporaryDirectory() as folder:
            subprocess.run([BOX, "demo", folder + "/out"], check=True, stdout=subprocess.DEVNULL)
            self.assertEqual(tuppence.side(folder + "/out/left.wav"), "left")
            self.assertEqual(tuppence.side(folder + "/out/right.wav"), "right")
            self.assertRaises(tuppence.NotSealed, tuppence.side, folder + "/out/left-before.wav")


if __name__ == "__main__":
    unittest.main()
