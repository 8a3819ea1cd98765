"""Compares the functions of the library pcs_c with what docs/FORMATS.md says, recomputed here bit by bit,
over random arguments, those out of range among them.

    PCS_LIBRARY=path/of/libpcs_c.so python3 bench/recompute.py [SEED]
"""
import os
import random
import sys
from ctypes import byref, c_uint8, c_uint64

sys.path.insert(0, os.path.join(os.path.dirname(os.path.abspath(__file__)), "..", "examples", "testbench"))
import pcs

END_TYPES = (0x87, 0x99, 0xAA, 0xB4, 0xCC, 0xD2, 0xE1, 0xFF)
TYPES = (*END_TYPES, 0x78, 0x1E, 0x4B)
ERROR_PAYLOAD = bytes.fromhex("1e1e8fc7e3f1783c")
OWN = """b6d90171f3 04675ade7e 46fe3ef356 5a848680d0 e1192a51f2 f24e124fd1 3dee429ca1 2232d6765b
    609fe17375 6ba271c43c fa0495ebd8 6c71226638 185ba2f695 14cc3197c3 d0b1cafba6 b456a6ba79""".split()
calls = 0


def same(what, mine, library):
    global calls
    calls += 1
    if mine != library:
        sys.exit(f"different: {what}: {mine!r} is {library!r} in the library")


def to_bits(number, width):
    return [number >> i & 1 for i in range(width)]


def to_number(bits):
    return sum(bit << i for i, bit in enumerate(bits))


# blocks


def payload_of(kind, octets):
    first = {pcs.DATA: b"", pcs.START: b"\x78", pcs.IDLE: b"\x1e", pcs.SET: b"\x4b"}
    whole = ERROR_PAYLOAD if kind == pcs.ERROR else (first[kind] if kind != pcs.END else bytes([END_TYPES[len(octets)]])) + octets
    return whole.ljust(8, b"\0")


def column_of(control, payload):
    if not control:
        return pcs.DATA, payload
    for kind, octets in [(pcs.START, payload[1:]), (pcs.IDLE, b""), (pcs.SET, payload[1:4])] + [(pcs.END, payload[1 : 1 + n]) for n in range(8)]:
        if payload_of(kind, octets) == payload:
            return kind, octets
    return pcs.ERROR, b""


def random_octets(kind):
    return random.randbytes(random.randrange(8) if kind == pcs.END else pcs.LENGTHS[kind])


def random_block():
    """A block of a column, or nearly one, or any."""
    kind = random.randrange(6)
    payload = bytearray(payload_of(kind, random_octets(kind)))
    if random.random() < 0.3:
        payload[random.randrange(8)] ^= 1 << random.randrange(8)
    if random.random() < 0.1:
        payload = random.randbytes(8)
    return random.choice((kind != pcs.DATA, kind == pcs.DATA, random.randrange(256))), bytes(payload)


def compare_blocks():
    for _ in range(2000):
        kind = random.randrange(6)
        octets = random_octets(kind)
        same("encode_block", (int(kind != pcs.DATA), int.from_bytes(payload_of(kind, octets), "little")), pcs.encode_block(kind, octets))
        control, payload = random_block()
        kind, count, octets = c_uint8(99), c_uint8(99), (c_uint8 * 8)(*b"\xa5" * 8)
        pcs._decode_block(int(control), int.from_bytes(payload, "little"), byref(kind), byref(count), octets)
        mine, own = column_of(control, payload)
        same("decode_block", (mine, len(own), own.ljust(8, b"\0")), (kind.value, count.value, bytes(octets)))
    for _ in range(300):
        kind, count = random.choice(((random.randrange(6, 256), random.randrange(256)), (pcs.END, random.randrange(8, 256))))
        control, payload = c_uint8(0xA5), c_uint64(0xA5A5)
        status = pcs._encode_block(kind, count, (c_uint8 * 8)(), byref(control), byref(payload))
        same("encode_block out of range", (1, 0xA5, 0xA5A5), (status, control.value, payload.value))


# wides


def joined(blocks):
    controls = [bool(control) for control, _ in blocks]
    payloads = [list(to_bits(int.from_bytes(payload, "little"), 64)) for _, payload in blocks]
    if not any(controls):
        return to_number([1] + sum(payloads, []))
    first = controls.index(True)
    if blocks[first][1][0] not in TYPES:
        return None
    payloads[first] = payloads[first][:4] + payloads[first][8:]
    return to_number([0] + [int(not control) for control in controls] + sum(payloads, []))


def parted(wide):
    bits = to_bits(wide, 257)
    if bits[0]:
        return [(0, to_number(bits[1 + 64 * i : 65 + 64 * i])) for i in range(4)]
    controls = [1 - bit for bit in bits[1:5]]
    if not any(controls):
        return None
    at, first = 5, controls.index(1)
    known = [octet for octet in TYPES if octet & 15 == to_number(bits[5 + 64 * first : 9 + 64 * first])]
    if not known:
        return None
    bits[9 + 64 * first : 9 + 64 * first] = to_bits(known[0] >> 4, 4)
    return [(control, to_number(bits[at + 64 * i : at + 64 * i + 64])) for i, control in enumerate(controls)]


def compare_wides():
    for _ in range(1000):
        blocks = [random_block() for _ in range(4)]
        same("join", joined(blocks), pcs.join([(int(control), int.from_bytes(payload, "little")) for control, payload in blocks]))
        wide = joined(blocks)
        if wide is None or random.random() < 0.5:
            wide = random.getrandbits(257) & ~random.choice((0, 1, 31))
        same("split", parted(wide), pcs.split(wide))
        # of word 4 bit 0 alone counts
        words, controls, payloads = (c_uint64 * 5)(*pcs._words(wide)), (c_uint8 * 4)(), (c_uint64 * 4)()
        words[4] += 2 * random.getrandbits(63)
        status = pcs._split(words, controls, payloads)
        same("split of all of word 4", parted(wide), None if status else list(zip(controls, payloads)))


def compare_lines():
    for _ in range(500):
        line, wide = random.getrandbits(64), random.getrandbits(257)
        for descrambles in (False, True):
            history, out = to_bits(line, 58), []
            for bit in to_bits(wide, 257):
                out.append(bit ^ history[-39] ^ history[-58])
                history.append(bit if descrambles else out[-1])
            passing = pcs.Scrambler(line)
            library = (passing.descramble if descrambles else passing.scramble)(wide)
            same("descramble" if descrambles else "scramble", (to_number(out), to_number(history[-58:])), (library, passing.line))


# markers and groups


def marker(lane):
    own = bytes.fromhex(OWN[lane])
    half = bytes([0x9A, 0x4A, 0x26, own[0]]), bytes([own[1], *own[2:5]])
    turned = [bytes(255 - octet for octet in octets) for octets in half]
    return half[0] + turned[0][:3] + half[1] + turned[1][:4]


def group_bits(number):
    bits = []
    lanes = [to_number(to_bits(int.from_bytes(marker(lane), "little"), 120)) for lane in range(16)]
    for k in range(12):
        for j in range(8):
            pair = (2 * j, 2 * j + 1) if k % 2 == 0 else (2 * j + 1, 2 * j)
            bits += [lanes[lane] >> 10 * k + i & 1 for lane in pair for i in range(10)]
    pad = [1] * 9
    for _ in range(133 * (number + 1)):
        pad.append(pad[-5] ^ pad[-9])
    return bits + pad[-133:] + [0] * 3


def compare_markers():
    for lane in range(256):
        octets = (c_uint8 * 15)(*b"\xa5" * 15)
        status = pcs._marker(lane, octets)
        same("marker", (0, marker(lane)) if lane < 16 else (1, b"\xa5" * 15), (status, bytes(octets)))
    for number in list(range(80)) + [random.randrange(1000) for _ in range(70)]:
        bits = group_bits(number)
        same("group", [to_number(bits[257 * i : 257 * i + 257]) for i in range(8)], pcs.group(number))
    same("a late group", pcs.group(((1 << 64) - 1) % 73), pcs.group((1 << 64) - 1))


# codes

POWERS = [1]
for _ in range(1022):
    POWERS.append(POWERS[-1] << 1 ^ (0x409 if POWERS[-1] & 512 else 0))
LOGS = {power: place for place, power in enumerate(POWERS)}


def times(a, b):
    return POWERS[(LOGS[a] + LOGS[b]) % 1023] if a and b else 0


def generator(count):
    product = [1]
    for j in range(count):
        shifted = [0] + product
        for i, symbol in enumerate(product):
            shifted[i] ^= times(symbol, POWERS[j])
        product = shifted
    return product[:count]


GENERATORS = {30: generator(30), 14: generator(14)}


def parity_of(message, count):
    register = [0] * count
    for symbol in reversed(message):
        back = symbol ^ register[-1]
        register = [(register[i - 1] if i else 0) ^ times(back, g) for i, g in enumerate(GENERATORS[count])]
    return register


def compare_codes():
    for count, most, encode, correct in ((30, 15, pcs.rs_encode, pcs.rs_correct), (14, 7, pcs.kr_encode, pcs.kr_correct)):
        for n in range(120):
            message = [random.getrandbits(16) for _ in range(514)]
            low = [symbol % 1024 for symbol in message]
            sent = parity_of(low, count) + low
            same("parity", sent[:count], encode(message))
            word = list(sent)
            errors = n % (most + 4)
            for place in random.sample(range(len(word)), errors):
                word[place] ^= random.randrange(1, 1024)
            # bits above the tenth don't count
            library = correct([symbol + 1024 * random.randrange(64) for symbol in word])
            same(f"{errors} errors", (errors, sent) if errors <= most else (None, word), library)


# pairs


def beats_of(bits):
    words = []
    for first in (0, 10):
        message = [to_number(bits[20 * (513 - i) + first : 20 * (513 - i) + first + 10]) for i in range(514)]
        words.append(parity_of(message, 30) + message)
    lanes = [[words[(k + lane) % 2][543 - 8 * k - lane // 2] for k in range(68)] for lane in range(16)]
    streams = [sum((to_bits(symbol, 10) for symbol in lane), []) for lane in lanes]
    return bytes(to_number(stream[8 * b : 8 * b + 8]) for b in range(85) for stream in streams)


def compare_pairs():
    for n in range(60):
        wides = [random.getrandbits(257) for _ in range(40)]
        beats = beats_of(sum((to_bits(wide, 257) for wide in wides), []))
        same("encode_pair", beats, pcs.encode_pair(wides))
        counts, wrong, damaged = [0, 0], ([0] * 16, [0] * 16), bytearray(beats)
        for place in random.sample(range(68 * 16), 2 * n // 3):
            k, lane = place // 16, place % 16
            bit = 10 * k + random.randrange(10)
            damaged[16 * (bit // 8) + lane] ^= 1 << bit % 8
            counts[(k + lane) % 2] += 1
            wrong[(k + lane) % 2][lane] += 1
        near = [count <= 15 for count in counts]
        told = tuple(count if is_near else None for count, is_near in zip(counts, near))
        replaced = [sum(lanes[lane] for lanes, is_near in zip(wrong, near) if is_near) for lane in range(16)]
        same("decode_pair", (wides if all(near) else None, told, replaced), pcs.decode_pair(damaged))


# levels


def compare_levels():
    for precode in (0, 1, 77):
        last, before = bytes(16), [0] * 8
        for _ in range(200):
            beat = random.randbytes(16)
            levels = bytearray(16)
            for j in range(8):
                for n in range(8):
                    gray = {(0, 0): 0, (0, 1): 1, (1, 1): 2, (1, 0): 3}[beat[2 * j] >> n & 1, beat[2 * j + 1] >> n & 1]
                    before[j] = (gray - before[j]) % 4 if precode else gray
                    levels[2 * j + n // 4] |= before[j] << 2 * (n % 4)
            same("encode_levels", bytes(levels), pcs.encode_levels(precode, beat, last))
            same("decode_levels", beat, pcs.decode_levels(precode, levels, last))
            last = bytes(levels)


random.seed(int(sys.argv[1]) if len(sys.argv) > 1 else 1)
compare_blocks()
compare_wides()
compare_lines()
compare_markers()
compare_codes()
compare_pairs()
compare_levels()
print("the same in", calls, "calls")
