"""block_encoder.sv compared with the library in cocotb. NOT RUN HERE: Debian has no cocotb, so neither was this
ever run nor does bench/testbench.sh run it. It is written for cocotb 1.8.

    PYTHONPATH=. PCS_LIBRARY=path/of/libpcs_c.so make -f $(cocotb-config --makefiles)/Makefile.sim \\
        SIM=verilator TOPLEVEL_LANG=verilog VERILOG_SOURCES=block_encoder.sv TOPLEVEL=block_encoder MODULE=test_block_encoder
"""
import random

import cocotb
from cocotb.triggers import Timer

import pcs


def as_mii(kind, octets):
    """(txd, txc) of a column: eight octets, and a control flag for each."""
    if kind == pcs.DATA:
        lanes, control = octets, 0
    elif kind == pcs.START:
        lanes, control = b"\xfb" + octets, 1
    elif kind == pcs.END:
        lanes, control = octets + b"\xfd" + b"\x07" * (7 - len(octets)), 0xFF << len(octets) & 0xFF
    elif kind == pcs.SET:
        lanes, control = b"\x9c" + octets + bytes(4), 1
    else:
        lanes, control = (b"\x07" if kind == pcs.IDLE else b"\xfe") * 8, 0xFF
    return int.from_bytes(lanes, "little"), control


@cocotb.test()
async def blocks_are_those_of_the_library(dut):
    """Sync bit and payload of 1000 random columns, each bit."""
    for _ in range(1000):
        kind = random.randrange(6)
        octets = random.randbytes(random.randrange(8) if kind == pcs.END else pcs.LENGTHS[kind])
        dut.txd.value, dut.txc.value = as_mii(kind, octets)
        await Timer(1, "ns")
        assert (int(dut.control.value), int(dut.payload.value)) == pcs.encode_block(kind, octets), (kind, octets.hex())
