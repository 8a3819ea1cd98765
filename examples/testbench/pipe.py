"""The program behind two pipes: beats in, report lines out, as they come.

The program writes all text that comes of what it has read before it reads again. So a testbench may
write beats, sixteen octets each, or any other pieces, and then read the lines that they bring: after an
alignment each 85th beat brings exactly one `pair` line. Beats that bring nothing bring no answer, so
`lines` waits for `patience` seconds.

    receiver = Receiver(header(4), "pcs")
    for beat in beats:
        receiver.push(beat)
    print(receiver.lines())
    print(receiver.close())

As a program it gives a capture to `pcs report`, 85 beats at a time, and tells what each of them brought:

    python3 pipe.py PROGRAM CAPTURE
"""
import os
import select
import subprocess
import sys


def header(period):
    """The header of a capture of version 1."""
    return b"P4LC\x01\x10" + period.to_bytes(2, "big") + bytes(8)


class Receiver:
    def __init__(self, head, program, words=("report",)):
        self.process = subprocess.Popen([program, *words], stdin=subprocess.PIPE, stdout=subprocess.PIPE, bufsize=0)
        self.text = b""
        self.push(head)

    def push(self, octets):
        while octets:
            octets = octets[self.process.stdin.write(octets) :]

    def lines(self, patience=0.1):
        """The whole lines that came by now."""
        while select.select([self.process.stdout], [], [], patience)[0]:
            more = os.read(self.process.stdout.fileno(), 65536)
            if not more:
                break
            self.text += more
        whole, _, self.text = self.text.rpartition(b"\n")
        return whole.decode().split("\n") if whole else []

    def close(self):
        """The lines that come at the end, and the status."""
        self.process.stdin.close()
        rest = self.text + self.process.stdout.read()
        return rest.decode().splitlines(), self.process.wait()


def main(program, capture):
    with open(capture, "rb") as file:
        octets = file.read()
    size = 16 if octets[4] == 1 else 32
    receiver = Receiver(octets[:size], program)
    for at in range(size, len(octets), 1360):
        for beat in range(at, min(at + 1360, len(octets)), 16):
            receiver.push(octets[beat : beat + 16])
        for line in receiver.lines():
            print(f"{(at - size) // 1360:4d}  {line}")
    lines, status = receiver.close()
    for line in lines:
        print(f" end  {line}")
    return status


if __name__ == "__main__":
    sys.exit(main(*sys.argv[1:]))
