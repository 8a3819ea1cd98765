"""Reads a waveform of tools/capture-to-vcd back, and compares it with the capture and its report.

    python3 bench/read_vcd.py CAPTURE REPORT WAVES.vcd
"""
import sys


def read(name):
    """The changes of each signal, as (time, bits), and the last time."""
    codes, changes, time = {}, {}, 0
    with open(name, encoding="ascii") as file:
        for line in file:
            fields = line.split()
            if fields[0] == "$var":
                assert fields[1] == "wire" and fields[3] not in codes, line
                codes[fields[3]] = (fields[4], int(fields[2]))
                changes[fields[4]] = []
            elif line[0] == "#":
                assert int(line[1:]) >= time, line
                time = int(line[1:])
            elif line[0] in "b01x":
                bits, code = fields if line[0] == "b" else (line[0], line[1:].strip())
                signal, width = codes[code]
                assert len(bits.lstrip("b")) <= width, line
                changes[signal].append((time, bits.lstrip("b")))
            else:
                assert line[0] == "$", line
    return changes, time


def at(changes, time):
    """The value at a time; None where it isn't known."""
    bits = [bits for when, bits in changes if when <= time][-1]
    return None if "x" in bits else int(bits, 2)


def compare_lanes(changes, end, octets):
    size = 16 * octets[4]
    beats = (len(octets) - size) // 16
    assert end == 8 * beats, end
    for lane in range(16):
        values, value, waiting = [], None, list(changes[f"lane_{lane}"])
        for beat in range(beats):
            while waiting and waiting[0][0] <= 8 * beat:
                value = int(waiting.pop(0)[1], 2)
            values.append(value)
        assert bytes(values) == octets[size + lane :: 16][:beats], f"lane {lane}"


def compare_pairs(changes, lines):
    place, frames = 0, 0
    for fields in lines:
        if fields[0] == "aligned":
            place = int(fields[1])
            assert at(changes["aligned"], place) == 1 and at(changes["aligned"], place - 1) == 0
            assert "".join(f"{at(changes[f'number_{lane}'], place):x}" for lane in range(16)) == fields[2]
        elif fields[0] == "pair":
            for time in (place, place + 679):
                told = [at(changes[name], time) for name in ("pair", "wrong_a", "wrong_b", *(f"wrong_{u}" for u in range(16)))]
                counts = [int(count) if count != "-" else 255 for count in fields[1:4] + fields[4].split(",")]
                assert told == counts, (fields, told)
            place += 680
        elif fields[0] == "frame":
            frames += 1
            assert at(changes["frames"], place) >= frames
        elif fields[0] == "lost":
            assert at(changes["aligned"], int(fields[1])) == 0
    assert at(changes["frames"], place) == frames


def main(capture, report, waves):
    changes, end = read(waves)
    with open(capture, "rb") as file:
        compare_lanes(changes, end, file.read())
    with open(report, encoding="ascii") as file:
        compare_pairs(changes, [line.split() for line in file])
    print("the same:", len(changes), "signals,", end // 8, "beats")


main(*sys.argv[1:])
