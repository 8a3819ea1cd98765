"""Random columns, codewords and pairs through the layers and back.

    PCS_LIBRARY=path/of/libpcs_c.so python3 example.py [SEED]
"""
import random
import sys

import pcs

random.seed(int(sys.argv[1]) if len(sys.argv) > 1 else 1)


def random_column():
    kind = random.randrange(6)
    count = random.randrange(8) if kind == pcs.END else pcs.LENGTHS[kind]
    return kind, random.randbytes(count)


def damaged(word, count):
    """The word with `count` of its symbols changed."""
    word = list(word)
    for place in random.sample(range(len(word)), count):
        word[place] ^= random.randrange(1, 1024)
    return word


# columns to scrambled wides and back
sending, receiving = pcs.Scrambler(), pcs.Scrambler()
wides = []
for _ in range(232):
    columns = [random_column() for _ in range(4)]
    wide = sending.scramble(pcs.join([pcs.encode_block(*column) for column in columns]))
    wides.append(wide)
    assert [pcs.decode_block(*block) for block in pcs.split(receiving.descramble(wide))] == columns
assert sending.line == receiving.line
print(f"928 columns, last wide {wides[-1]:065x}")

# pairs, the first of which begins with a group, and some wrong symbols in a lane
wides = pcs.group(0) + wides
for number in range(6):
    forty = wides[40 * number : 40 * number + 40]
    octets = bytearray(pcs.encode_pair(forty))
    octets[16 * 6 + 3] ^= 0xFF  # octet 6 of lane 3 has bits of two symbols
    again, counts, wrong = pcs.decode_pair(octets)
    assert again == forty and sum(counts) == wrong[3] == sum(wrong) == 2
    last = bytes(16)
    for beat in range(85):
        levels = pcs.encode_levels(True, octets[16 * beat : 16 * beat + 16], last)
        assert pcs.decode_levels(True, levels, last) == octets[16 * beat : 16 * beat + 16]
        last = levels
print("6 pairs, last levels", last.hex())

# codewords of both codes
for encode, correct, most in ((pcs.rs_encode, pcs.rs_correct, 15), (pcs.kr_encode, pcs.kr_correct, 7)):
    for count in range(60):
        message = [random.randrange(1024) for _ in range(514)]
        sent = encode(message) + message
        errors = count % (most + 1)
        assert correct(damaged(sent, errors)) == (errors, sent)
    hopeless = damaged(sent, most + 1)
    assert correct(hopeless) == (None, hopeless)
print("120 codewords corrected, and two left as they were; marker 0 is", pcs.marker(0).hex())
