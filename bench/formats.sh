#!/bin/bash
# Makes files of the program's binary formats, and reads them by the Kaitai Struct descriptions in
# docs/formats: by tools/read-ksy, and where it is at hand compiles the descriptions by
# kaitai-struct-compiler too. Skipped where Python or PyYAML is missing.
#
#     bench/formats.sh [PROGRAM]
set -u
cd "$(dirname "$0")/.." || exit 1
program=${1:-$PWD/crates/pcs_cli/out/pcs_cli}
python3 -c 'import yaml' 2> /dev/null || { echo "skipped: python3 with PyYAML is missing"; exit 0; }
work=$(mktemp -d)
trap 'rm -rf "$work"' EXIT
wrong=0

reads() {
    if tools/read-ksy "docs/formats/$1.ksy" "$work/$2" > "$work/read"; then
        grep -q "^beats: $3\$" "$work/read" || { echo "$2: not $3 beats"; wrong=$((wrong + 1)); }
    else
        echo "$2 isn't read"
        wrong=$((wrong + 1))
    fi
}

refuses() {
    if tools/read-ksy "docs/formats/$1.ksy" "$work/$2" > "$work/read" 2>&1; then
        echo "$2 is read"
        wrong=$((wrong + 1))
    fi
}

"$program" encode --period 4 < examples/frames.txt > "$work/one"
"$program" encode --form 2 --period 4 < examples/frames.txt > "$work/two"
"$program" mux < "$work/one" > "$work/levels"
"$program" mux --precode < "$work/two" > "$work/precoded"
beats=$((($(stat -c %s "$work/one") - 16) / 16))
reads pcs_capture one "$beats"
reads pcs_capture two "$beats"
reads pcs_levels levels "$beats"
reads pcs_levels precoded "$beats"
head -c 1000 "$work/one" > "$work/cut"
refuses pcs_capture cut
refuses pcs_levels one
refuses pcs_capture levels
if command -v kaitai-struct-compiler > /dev/null; then
    kaitai-struct-compiler -t python --outdir "$work" docs/formats/*.ksy || wrong=$((wrong + 1))
fi
echo "$wrong wrong"
[ "$wrong" = 0 ]
