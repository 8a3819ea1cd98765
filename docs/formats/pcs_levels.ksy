meta:
  id: pcs_levels
  title: PAM4 levels of eight level lanes
  file-extension: p4lv
  endian: be
doc: |
  A header of 32 octets, then level beats of sixteen octets to the end of the file. Octets 2j and
  2j + 1 of a beat hold the next eight levels of level lane j, two bits each, the first in bits 0
  and 1.
seq:
  - id: magic
    contents: P4LV
  - id: version
    contents: [1]
  - id: num_level_lanes
    contents: [8]
  - id: precoded
    type: u1
    valid:
      max: 1
  - id: reserved
    contents: [0]
  - id: period
    type: u4
    valid:
      min: 1
      max: 65536
  - id: skew
    doc: in bits; at most 340 times the period, less one, too
    type: u4
    valid:
      max: 100000
  - id: reserved2
    contents: [0, 0, 0, 0, 0, 0, 0, 0, 0, 0, 0, 0, 0, 0, 0, 0]
  - id: beats
    type: level_beat
    repeat: eos
types:
  level_beat:
    seq:
      - id: level_lanes
        type: eight_levels
        repeat: expr
        repeat-expr: 8
  eight_levels:
    meta:
      bit-endian: le
    seq:
      - id: levels
        type: b2
        repeat: expr
        repeat-expr: 8
