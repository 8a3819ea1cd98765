#!/bin/bash
# Sends a pcap file of a hundred frames of 1514 octets over the lanes and back, and looks whether the file
# is the same. Then makes one of 60 frames with Wireshark's tools, turns it with the built program into
# frame lines, sends these over lanes and back, and writes the frames into a pcap file again. Looks whether
# the lines are those of the frames, and whether tshark and capinfos read in both files the same frames.
set -eu
cd "$(dirname "$0")/.."
program=${1:-$PWD/crates/pcs_cli/out/pcs_cli}
work=$(mktemp -d)
trap 'rm -rf "$work"' EXIT

for number in $(seq 100); do
    printf '%04x' "$number" && printf '5a%.0s' $(seq 1512) && echo
done | "$program" pcap --write > "$work/hundred.pcap"
"$program" pcap < "$work/hundred.pcap" | "$program" encode | "$program" decode | "$program" pcap --write |
    cmp - "$work/hundred.pcap"
[ "$(stat -c %s "$work/hundred.pcap")" = $((24 + 100 * 1530)) ]
echo "100 frames of 1514 octets come back"

for tool in text2pcap editcap tshark capinfos od; do
    command -v "$tool" > /dev/null || { echo "packets: no $tool here"; exit 0; }
done

for number in $(seq 60); do
    head -c $((14 + number * 25)) "$program" | tail -c $((13 + number * 24)) > "$work/frame"
    od -Ax -v -tx1 "$work/frame" >> "$work/dump"
    od -An -v -tx1 "$work/frame" | tr -d ' \n' >> "$work/text"
    echo >> "$work/text"
done
text2pcap -q "$work/dump" "$work/any" 2> /dev/null
editcap -F pcap "$work/any" "$work/sent.pcap"

"$program" pcap < "$work/sent.pcap" > "$work/lines"
sed 's/^/2 /' "$work/text" | cmp - "$work/lines"
"$program" encode --lead 2 < "$work/lines" | "$program" decode | "$program" pcap --write > "$work/came.pcap"
"$program" pcap < "$work/came.pcap" | cmp - "$work/lines"

count=$(capinfos -c -r -T -m "$work/came.pcap" | cut -d, -f2 | tr -d '"')
[ "$count" = 60 ] || { echo "capinfos counts $count frames"; exit 1; }
tshark -n -r "$work/sent.pcap" -x > "$work/sent" 2> /dev/null
tshark -n -r "$work/came.pcap" -x > "$work/came" 2> /dev/null
[ "$(grep -c '^0000' "$work/came")" -ge 60 ] || { echo "tshark shows too few frames"; exit 1; }
cmp "$work/sent" "$work/came"
echo "60 frames of a pcap file come back"
