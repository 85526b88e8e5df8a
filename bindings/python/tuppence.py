"""The proved denoiser for Python, over libtuppence.so. numpy is optional.

    import tuppence
    cleaned = tuppence.clean(samples)          # 16-bit samples at 48 kHz: array('h'), list or numpy array

    tuppence.side("left.wav")                  # "left" or "right", if the box wrote this file; otherwise NotSealed

    bench = tuppence.Bench()                   # or frame by frame, as the samples come
    for block in blocks:                       # 1 to 4,096 samples at a time
        cleaned, answers = bench.take(block)   # the frames that they complete, and what is said of each
"""

import array
import ctypes
import os
import pathlib
from collections import namedtuple

FRAME = 480
PIECE = 4096
FRAMES = 9
STORE = 98304
RECORD = 12

_HERE = pathlib.Path(__file__).resolve().parent
_PLACE_FRAMES = 5

Answer = namedtuple("Answer", "heard voice energy")
Answer.__doc__ = "What the library says of a frame: whether something was heard, how likely a voice is, its energy."


class Refused(Exception):
    """A call was refused, and nothing changed. `number` says why: docs/REFUSALS.md has them all."""

    WORDS = {
        1: "there is no such bench",
        2: "the store or the record is not this bench's",
        3: "the bench is closed",
        4: "another call is due",
        5: "a buffer has a wrong length",
        7: "the model does not read",
        8: "the model has other sizes than at the opening",
        9: "a sample is not a number from -32768 to 32767",
    }

    def __init__(self, number):
        self.number = number
        words = self.WORDS.get(number % 256 if number % 256 == 7 else number, "refused")
        super().__init__(f"{words} (refusal {number})")


def _library():
    """The shared library: the one that TUPPENCE_LIBRARY names, the package's, the one built here, or the system's."""
    named = os.environ.get("TUPPENCE_LIBRARY")
    built = _HERE.parent.parent / "target" / "shared" / "release" / "libtuppence.so"
    packaged = _HERE.parent.parent / "lib" / "libtuppence.so.1"
    for path in [named, packaged, built, "libtuppence.so.1"]:
        try:
            if path:
                return ctypes.CDLL(str(path))
        except OSError:
            if path == named:
                raise
    raise OSError("libtuppence.so is not found; name it by TUPPENCE_LIBRARY")


def house_model():
    """The bytes of the house model: the one that TUPPENCE_MODEL names, or the one beside the library."""
    places = [
        os.environ.get("TUPPENCE_MODEL"),
        _HERE / "house.rnn",
        _HERE.parent.parent / "host" / "model" / "house.rnn",
    ]
    for place in places:
        if place and os.path.exists(place):
            return pathlib.Path(place).read_bytes()
    raise OSError("house.rnn is not found; name it by TUPPENCE_MODEL")


_lib = _library()
_FLOATS = ctypes.POINTER(ctypes.c_float)
_U32S = ctypes.POINTER(ctypes.c_uint32)
_SIZE = ctypes.c_size_t
for _name in ("tuppence_open", "tuppence_open_crate"):
    getattr(_lib, _name).argtypes = [_U32S, _SIZE, _FLOATS, _SIZE, ctypes.c_uint32, ctypes.c_char_p, _SIZE]
_lib.tuppence_take.argtypes = [
    _U32S, _SIZE, _FLOATS, _SIZE, ctypes.c_uint32, _FLOATS, _SIZE,
    ctypes.c_char_p, _SIZE, _FLOATS, _SIZE, _FLOATS, _SIZE,
]
_lib.tuppence_pack.argtypes = [ctypes.POINTER(ctypes.c_uint8), _SIZE, _FLOATS, _SIZE]
_BYTES = ctypes.POINTER(ctypes.c_uint8)
_U64S = ctypes.POINTER(ctypes.c_uint64)
_lib.tuppence_judge_begin.argtypes = [_U64S, _SIZE, _BYTES, _SIZE]
_lib.tuppence_judge_more.argtypes = [_U64S, _SIZE, _BYTES, _SIZE, ctypes.c_char_p, _SIZE]
_lib.tuppence_judge_verdict.argtypes = [_U64S, _SIZE, _U64S, _SIZE, _BYTES, _SIZE]
for _name in ("open", "open_crate", "take", "pack", "judge_begin", "judge_more", "judge_verdict"):
    getattr(_lib, "tuppence_" + _name).restype = ctypes.c_uint32


def _check(number):
    if number:
        raise Refused(number)


def _floats(samples):
    """Samples as a C array of floats: from floats or whole numbers, in any sequence."""
    return (ctypes.c_float * len(samples))(*(float(sample) for sample in samples))


class Bench:
    """One bench, which cleans what one microphone records. Even numbers are left benches, odd ones right."""

    def __init__(self, number=0, model=None, own=False):
        """Opens bench `number`, 0 to 15, with the bytes of a model file (the house model if none is given).

        It finds pitch as nnnoiseless does; with `own`, by a simpler rule, with plain transforms, which is slower.
        """
        self._number = number
        self._model = house_model() if model is None else bytes(model)
        self._store = (ctypes.c_float * STORE)()
        self._record = (ctypes.c_uint32 * RECORD)()
        self._out = (ctypes.c_float * (FRAMES * FRAME))()
        self._answers = (ctypes.c_float * (3 * FRAMES))()
        opening = _lib.tuppence_open if own else _lib.tuppence_open_crate
        _check(opening(self._record, RECORD, self._store, STORE, number, self._model, len(self._model)))

    @property
    def frames(self):
        """Frames since the opening."""
        return self._record[_PLACE_FRAMES]

    def take(self, samples):
        """Cleans 1 to 4,096 samples from -32768 to 32767. Gives the cleaned samples of the frames that they complete,
        as array('f'), and an Answer for each frame. Samples that are left over wait for the next call."""
        piece, before = _floats(samples), self.frames
        _check(
            _lib.tuppence_take(
                self._record, RECORD, self._store, STORE, self._number, piece, len(piece),
                self._model, len(self._model), self._out, len(self._out), self._answers, len(self._answers),
            )
        )
        count = (self.frames - before) % 2**32
        cleaned = array.array("f", self._out[: FRAME * count])
        answers = [self._answers[3 * i : 3 * i + 3] for i in range(count)]
        return cleaned, [Answer(heard != 0, voice, energy) for heard, voice, energy in answers]


def _packed(samples):
    """Cleaned samples as 16-bit integers, rounded and clipped as the box does it."""
    floats, out = _floats(samples), (ctypes.c_uint8 * (2 * len(samples)))()
    _check(_lib.tuppence_pack(out, len(out), floats, len(floats)))
    packed = array.array("h")
    packed.frombytes(bytes(out))
    return packed


def clean(samples, model=None):
    """Cleans a whole recording: 16-bit samples at 48 kHz of one microphone, as `box clean` does.

    Gives as many samples as it is given, as array('h'), or as a numpy array if it is given one.
    """
    bench, out = Bench(model=model), array.array("h")
    frames = -(-len(samples) // FRAME) + 1 if len(samples) else 0
    silence = [0] * (frames * FRAME - len(samples))
    for part in (samples, silence):
        for at in range(0, len(part), PIECE):
            cleaned, _ = bench.take(part[at : at + PIECE])
            out.extend(_packed(cleaned) if cleaned else [])
    out = out[FRAME : FRAME + len(samples)]
    if type(samples).__module__ == "numpy":
        import numpy

        return numpy.array(out, dtype=numpy.int16)
    return out


class NotSealed(Exception):
    """The file is not, byte for byte, a recording that the box wrote. `box side` says why."""


# How many bytes of a file are read at a time.
_PART = 1 << 20


def side(path):
    """Whose recording a file is, "left" or "right", if it is byte for byte one that the box wrote.

    The library's judge decides, as in `box side`. If it does not accept the file, NotSealed is raised.
    """
    numbers, held, told = (ctypes.c_uint64 * 11)(), (ctypes.c_uint8 * 76)(), (ctypes.c_uint64 * 5)()
    judge = numbers, len(numbers), held, len(held)
    _check(_lib.tuppence_judge_begin(*judge))
    with open(path, "rb") as file:
        while part := file.read(_PART):
            _check(_lib.tuppence_judge_more(*judge, part, len(part)))
    if _lib.tuppence_judge_verdict(told, len(told), *judge):
        raise NotSealed(path)
    return ("left", "right")[told[0]]
