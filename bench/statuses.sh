#!/bin/bash
# Runs the built program over the standard streams, and looks whether its exit status, its standard
# output and its line on standard error are those of README's table: that `main` hands over the words,
# the streams and the status. Prints the cases that differ, and their number.
set -u
cd "$(dirname "$0")/.."
program=${1:-$PWD/crates/pcs_cli/out/pcs_cli}
work=$(mktemp -d)
trap 'rm -rf "$work"' EXIT
differ=0

# A case: the status, the length of standard output, the line on standard error, the input, the words.
look() {
    local status=0 want=$1 length=$2 line=$3 input=$4
    shift 4
    "$program" "$@" < "$input" > "$work/out" 2> "$work/notes" || status=$?
    if [ "$status" != "$want" ] || [ "$(stat -c %s "$work/out")" != "$length" ] \
        || [ "$(cat "$work/notes")" != "$line" ]; then
        differ=$((differ + 1))
        echo "$*: status $status, $(stat -c %s "$work/out") octets, $(cat "$work/notes")"
    fi
}

printf '1 010203\n' > "$work/line"
printf '0 012\n' > "$work/odd"
: > "$work/nothing"
"$program" encode --period 1 --lead 2 --tail 1 < "$work/line" > "$work/capture"
{ cat "$work/capture"; printf '1234567'; } > "$work/over"
head -c 16 "$work/capture" > "$work/header"
printf '010203\n' | "$program" pcap --write | head -c 42 > "$work/cut"
{ printf '0 '; printf '5a%.0s' $(seq 16384); echo; } > "$work/long"

look 0 60 '' "$work/line" blocks
look 0 5456 '' "$work/line" encode --period 1 --lead 2 --tail 1
look 0 7 '' "$work/capture" decode
look 2 0 'pcs: usage' "$work/nothing"
look 2 0 'pcs: usage' "$work/nothing" decode --skew x
look 2 0 'pcs: needs form 2' "$work/nothing" encode --period 4097
look 2 0 'pcs: item 1: range' "$work/nothing" impair flip=16:0
look 3 0 'pcs: read fault' . blocks
look 6 0 'pcs: line 1: odd hex' "$work/odd" blocks
look 7 0 'pcs: header ends after 0 octets' "$work/nothing" decode
look 7 0 'pcs: header wrong at octet 0' "$work/long" decode
look 8 8176 'pcs: too tight at frame 1' "$work/long" encode --period 1 --lead 2 --tail 0
look 9 7 'pcs: 7 octets over' "$work/over" decode
look 10 0 'pcs: not aligned' "$work/header" decode
look 13 0 'pcs: record 1: ended' "$work/cut" pcap
# standard output that takes nothing, and standard error that takes nothing
status=0
"$program" blocks < "$work/line" > /dev/full 2> "$work/notes" || status=$?
[ "$status $(cat "$work/notes")" = '4 pcs: write fault' ] || { differ=$((differ + 1)); echo "a full device: $status"; }
status=0
"$program" blocks < "$work/odd" > /dev/null 2> /dev/full || status=$?
[ "$status" = 12 ] || { differ=$((differ + 1)); echo "full notes: $status"; }
echo "17 cases, $differ differ"
[ "$differ" = 0 ]
