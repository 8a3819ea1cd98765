#!/bin/bash
# Sends 1800 frames of 64, 1518 and 9018 octets by turns with the default period, and looks whether the
# built program gives them back, and what its report begins with and how many pairs it has.
set -eu
cd "$(dirname "$0")/.."
program=${1:-$PWD/crates/pcs_cli/out/pcs_cli}
work=$(mktemp -d)
trap 'rm -rf "$work"' EXIT
for length in 64 1518 9018; do
    head -c "$length" /dev/zero | tr '\0' 'Z' | od -An -v -tx1 | tr -d ' \n'
    echo
done > "$work/three"
for _ in $(seq 600); do cat "$work/three"; done > "$work/frames"
sed 's/^/2 /' "$work/frames" | "$program" encode --lead 2 --tail 0 > "$work/capture"
[ "$(stat -c %s "$work/capture")" = 17954736 ] || { echo "the capture has another length"; exit 1; }
"$program" decode < "$work/capture" | cmp - "$work/frames"
"$program" report < "$work/capture" > "$work/report"
[ "$(head -1 "$work/report")" = 'aligned 2785280 0123456789abcdef' ] || { echo "the report begins otherwise"; exit 1; }
[ "$(grep -c '^pair ' "$work/report")" = 9106 ] || { echo "the report has other pairs"; exit 1; }
echo "1800 frames come back, in 9106 pairs"
