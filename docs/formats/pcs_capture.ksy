meta:
  id: pcs_capture
  title: Capture of sixteen lanes
  file-extension: p4lc
  endian: be
doc: |
  A header of version 1 (16 octets) or 2 (32 octets), then beats of sixteen octets, one for each
  lane, to the end of the file. Bit 0 of an octet travels first.
seq:
  - id: magic
    contents: P4LC
  - id: version
    type: u1
    valid:
      any-of: [1, 2]
  - id: num_lanes
    type: u1
    valid: 16
  - id: header
    type:
      switch-on: version
      cases:
        1: header1
        2: header2
  - id: beats
    type: beat
    repeat: eos
types:
  header1:
    seq:
      - id: period
        type: u2
        valid:
          min: 1
          max: 4096
      - id: reserved
        contents: [0, 0, 0, 0, 0, 0, 0, 0]
  header2:
    seq:
      - id: reserved
        contents: [0, 0]
      - id: period
        type: u4
        valid:
          min: 1
          max: 65536
      - id: skew
        doc: in bits; at most 340 times the period, less one, too
        type: u4
        valid:
          max: 100000
      - id: reserved2
        contents: [0, 0, 0, 0, 0, 0, 0, 0, 0, 0, 0, 0, 0, 0, 0, 0]
  beat:
    seq:
      - id: lanes
        doc: the next eight bits of each lane, bit 0 first
        type: u1
        repeat: expr
        repeat-expr: 16
