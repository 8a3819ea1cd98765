"""The layers of pcs for Python, by ctypes alone: for cocotb, for golden vectors, for a notebook.

Needs libpcs_c.so beside this file, or its path in PCS_LIBRARY:

    cc -shared -o libpcs_c.so -Wl,--whole-archive libpcs_c.a -Wl,--no-whole-archive

include/pcs.h says what each function does. Nothing here can break what the library asks of its caller:
each array is made here, of the right size.
"""
import ctypes
import os
from ctypes import POINTER, byref, c_uint8, c_uint16, c_uint64

_path = os.environ.get("PCS_LIBRARY", os.path.join(os.path.dirname(os.path.abspath(__file__)), "libpcs_c.so"))
_lib = ctypes.CDLL(_path)

KINDS = ("DATA", "START", "END", "IDLE", "ERROR", "SET")
DATA, START, END, IDLE, ERROR, SET = range(6)
LENGTHS = {DATA: 8, START: 7, IDLE: 0, ERROR: 0, SET: 3}
LINE_START = (1 << 58) - 1
NO_CODEWORD = 255

_u8x2, _u8x4, _u8x8, _u8x15, _u8x16, _u8x1360 = (c_uint8 * n for n in (2, 4, 8, 15, 16, 1360))
_u16x14, _u16x16, _u16x30, _u16x514, _u16x528, _u16x544 = (c_uint16 * n for n in (14, 16, 30, 514, 528, 544))
_u64x4, _u64x5, _u64x40, _u64x200 = (c_uint64 * n for n in (4, 5, 40, 200))


def _declare(name, result, *arguments):
    function = getattr(_lib, "pcs_" + name)
    function.restype, function.argtypes = result, arguments
    return function


_encode_block = _declare("encode_block", c_uint8, c_uint8, c_uint8, _u8x8, POINTER(c_uint8), POINTER(c_uint64))
_decode_block = _declare("decode_block", None, c_uint8, c_uint64, POINTER(c_uint8), POINTER(c_uint8), _u8x8)
_join = _declare("join", c_uint8, _u8x4, _u64x4, _u64x5)
_split = _declare("split", c_uint8, _u64x5, _u8x4, _u64x4)
_scramble = _declare("scramble", None, POINTER(c_uint64), _u64x5)
_descramble = _declare("descramble", None, POINTER(c_uint64), _u64x5)
_marker = _declare("marker", c_uint8, c_uint8, _u8x15)
_group = _declare("group", None, c_uint64, _u64x40)
_rs_encode = _declare("rs_encode", None, _u16x514, _u16x30)
_rs_correct = _declare("rs_correct", c_uint8, _u16x544)
_kr_encode = _declare("kr_encode", None, _u16x514, _u16x14)
_kr_correct = _declare("kr_correct", c_uint8, _u16x528)
_encode_pair = _declare("encode_pair", None, _u64x200, _u8x1360)
_decode_pair = _declare("decode_pair", c_uint8, _u8x1360, _u64x200, _u8x2, _u16x16)
_encode_levels = _declare("encode_levels", None, c_uint8, _u8x16, _u8x16)
_decode_levels = _declare("decode_levels", None, c_uint8, _u8x16, _u8x16, _u8x16)


def _words(wide):
    """A wide is an int of 257 bits, whose lowest bit travels first."""
    if not 0 <= wide < 1 << 257:
        raise ValueError("a wide has 257 bits")
    return [wide >> 64 * k & (1 << 64) - 1 for k in range(5)]


def _wide(words):
    return sum(word << 64 * k for k, word in enumerate(words))


def _wides(words):
    return [_wide(words[5 * i : 5 * i + 5]) for i in range(len(words) // 5)]


def _exactly(items, count):
    items = list(items)
    if len(items) != count:
        raise ValueError(f"{len(items)} items, and not {count}")
    return items


def _count(answer):
    return None if answer == NO_CODEWORD else answer


def encode_block(kind, octets=b""):
    """(control, payload) of a column."""
    octets = bytes(octets)
    if kind not in LENGTHS and kind != END or len(octets) > 7 and kind == END:
        raise ValueError("no such column")
    if kind != END and len(octets) != LENGTHS[kind]:
        raise ValueError(f"a column of kind {KINDS[kind]} has {LENGTHS[kind]} octets")
    control, payload = c_uint8(), c_uint64()
    _encode_block(kind, len(octets), _u8x8(*octets), byref(control), byref(payload))
    return control.value, payload.value


def decode_block(control, payload):
    """(kind, octets) of a block; ERROR where it is no column's."""
    kind, count, octets = c_uint8(), c_uint8(), _u8x8()
    _decode_block(control, payload, byref(kind), byref(count), octets)
    return kind.value, bytes(octets[: count.value])


def join(blocks):
    """The wide of four blocks (control, payload); None where the first control block has no known type."""
    controls, payloads = zip(*_exactly(blocks, 4))
    wide = _u64x5()
    return None if _join(_u8x4(*controls), _u64x4(*payloads), wide) else _wide(wide)


def split(wide):
    """The four blocks of a wide, or None."""
    controls, payloads = _u8x4(), _u64x4()
    return None if _split(_u64x5(*_words(wide)), controls, payloads) else list(zip(controls, payloads))


class Scrambler:
    """`line` is the last 58 bits of the line, bit 57 the newest: compare it with the RTL's register."""

    def __init__(self, line=LINE_START):
        self.line = line

    def _pass(self, call, wide):
        line, words = c_uint64(self.line), _u64x5(*_words(wide))
        call(byref(line), words)
        self.line = line.value
        return _wide(words)

    def scramble(self, wide):
        return self._pass(_scramble, wide)

    def descramble(self, wide):
        return self._pass(_descramble, wide)


def marker(lane):
    """The fifteen octets of a lane's marker, as they travel."""
    octets = _u8x15()
    if not 0 <= lane < 16 or _marker(lane, octets):
        raise ValueError("lanes are 0 to 15")
    return bytes(octets)


def group(number):
    """The eight wides of a group, counted from 0."""
    if not 0 <= number < 1 << 64:
        raise ValueError("groups have numbers of 64 bits")
    words = _u64x40()
    _group(number, words)
    return _wides(words)


def rs_encode(message):
    """The 30 parity symbols of 514, by places: message[513] travels first."""
    parity = _u16x30()
    _rs_encode(_u16x514(*_exactly(message, 514)), parity)
    return list(parity)


def rs_correct(word):
    """(count, codeword) near 544 symbols, or (None, word)."""
    symbols = _u16x544(*_exactly(word, 544))
    return _count(_rs_correct(symbols)), list(symbols)


def kr_encode(message):
    """The 14 parity symbols of 514."""
    parity = _u16x14()
    _kr_encode(_u16x514(*_exactly(message, 514)), parity)
    return list(parity)


def kr_correct(word):
    """(count, codeword) near 528 symbols, or (None, word)."""
    symbols = _u16x528(*_exactly(word, 528))
    return _count(_kr_correct(symbols)), list(symbols)


def encode_pair(wides):
    """The 1360 octets of the beats of forty wides."""
    octets = _u8x1360()
    _encode_pair(_u64x200(*(word for wide in _exactly(wides, 40) for word in _words(wide))), octets)
    return bytes(octets)


def decode_pair(octets):
    """(wides, (a, b), wrong symbols by lane) of 1360 octets; the wides are None where a word has no codeword."""
    words, counts, wrong = _u64x200(), _u8x2(), _u16x16()
    bad = _decode_pair(_u8x1360(*_exactly(octets, 1360)), words, counts, wrong)
    return None if bad else _wides(words), tuple(map(_count, counts)), list(wrong)


def encode_levels(precode, beat, last=bytes(16)):
    """The level beat of a beat after the level beat `last`."""
    levels = _u8x16(*_exactly(last, 16))
    _encode_levels(bool(precode), _u8x16(*_exactly(beat, 16)), levels)
    return bytes(levels)


def decode_levels(precode, levels, last=bytes(16)):
    """The beat of a level beat after the level beat `last`."""
    beat = _u8x16()
    _decode_levels(bool(precode), _u8x16(*_exactly(last, 16)), _u8x16(*_exactly(levels, 16)), beat)
    return bytes(beat)
