"""The whole program over memory, for Python: run("report --skew 64", capture) gives the status, the text
and the line that the program would write.

Needs libpcs_run_c.so beside this file, or its path in PCS_RUN_LIBRARY:

    cc -shared -o libpcs_run_c.so -Wl,--whole-archive libpcs_run_c.a -Wl,--no-whole-archive liblibc_c.a

As a program it runs ten commands, good and bad, and compares what comes with what the built program writes:

    python3 pcs_run.py PROGRAM FRAMES
"""
import ctypes
import os
import subprocess
import sys

_path = os.environ.get("PCS_RUN_LIBRARY", os.path.join(os.path.dirname(os.path.abspath(__file__)), "libpcs_run_c.so"))
_run = ctypes.CDLL(_path).pcs_run
_size = ctypes.c_size_t
_run.restype = ctypes.c_uint8
_run.argtypes = (
    ctypes.c_char_p, _size, ctypes.c_char_p, _size, ctypes.c_void_p, _size, ctypes.POINTER(_size), ctypes.c_void_p, ctypes.POINTER(_size),
)

NO_ROOM = 4


def run_once(words, octets, room):
    """The status, the text and the line of a run with so much room for the text."""
    joined = b"".join(word.encode() + b"\0" for word in words)
    output, line = ctypes.create_string_buffer(max(room, 1)), ctypes.create_string_buffer(64)
    written, noted = _size(), _size()
    status = _run(joined, len(joined), octets, len(octets), output, room, ctypes.byref(written), line, ctypes.byref(noted))
    return status, output.raw[: written.value], line.raw[: noted.value]


def run(command, octets=b"", room=1 << 16):
    """The same with as much room as it takes."""
    while True:
        status, text, line = run_once(command.split(), octets, room)
        if status != NO_ROOM:
            return status, text, line
        room *= 4


def cases(frames):
    """Commands, and the octets that they read."""
    capture = run("encode --period 4", frames)[1]
    return [
        ("encode --period 4", frames),
        ("report", capture),
        ("decode --skew 64", capture),
        ("columns", capture),
        ("blocks", frames),
        ("impair burst=0:4100:300", capture),
        ("trial 5 20", b""),
        ("decode", capture[:-3]),
        ("decode", b"P4LD" + capture[4:]),
        ("nonsense", b""),
    ]


def main(program, path):
    with open(path, "rb") as file:
        frames = file.read()
    differ = 0
    for command, octets in cases(frames):
        ours = run(command, octets)
        done = subprocess.run([program, *command.split()], input=octets, capture_output=True)
        same = ours == (done.returncode, done.stdout, done.stderr)
        differ += not same
        print(f"{command}: {ours[0]}, {len(ours[1])} octets, {ours[2]!r}{'' if same else ' DIFFERS'}")
    print(f"{'FAILED' if differ else 'SAME'}: {differ} differences")
    return differ


if __name__ == "__main__":
    sys.exit(main(*sys.argv[1:]))
