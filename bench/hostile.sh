#!/bin/bash
# bench/hostile.sh [PROGRAM] [MEGABYTES]
# Runs the built program as a process in hostile surroundings: streams that are closed, full or
# abandoned, input that trickles, limits on the address space and on the stack, and long input under a
# limit. Looks that each run ends with its status and its line, or, where a limit leaves no stack, by a
# signal with nothing written. Prints a line for each kind of trial and what differs, and ends with 1
# where something does. MEGABYTES is how long the long input is, by default
# 200; 4096 takes some minutes.
set -u
cd "$(dirname "$0")/.."
program=${1:-$PWD/crates/pcs_cli/out/pcs_cli}
megabytes=${2:-200}
[ -x "$program" ] || { echo "hostile: there is no program at $program"; exit 2; }
work=$(mktemp -d)
trap 'rm -rf "$work"' EXIT
differ=0
cases=0

# Each command with its input; all of them write something.
lines=$work/lines
printf '%s\n' '1 010203' '2 00112233445566778899aabbccddeeff' '1 @000001' > "$lines"
"$program" blocks < "$lines" > "$work/blocks"
"$program" encode --period 1 --lead 2 --tail 1 < "$lines" > "$work/capture"
"$program" mux < "$work/capture" > "$work/levels"
{ printf '001%.0s' $(seq 528); echo; } > "$work/symbols"
commands=(
    "lines blocks"
    "blocks unblock"
    "lines encode --period 1 --lead 2 --tail 1"
    "capture decode"
    "capture report"
    "capture columns"
    "capture impair order=fedcba9876543210 skew=0:300 noise=1:40"
    "capture migrate"
    "capture mux"
    "levels demux"
    "symbols kr"
    "lines trial 7 1"
)
# The command of packet captures, where it is built.
"$program" decode < "$work/capture" > "$work/frames"
if "$program" pcap --write < "$work/frames" > "$work/packets" 2> /dev/null; then
    commands+=("packets pcap" "frames pcap --write")
fi

# Whether the status, the line on standard error and, where told, the octets on standard output are
# those that are wanted.
look() {
    local what=$1 want=$2 line=$3 status=$4
    cases=$((cases + 1))
    if [ "$status" != "$want" ] || [ "$(cat "$work/notes")" != "$line" ] || ! ${5:-true}; then
        differ=$((differ + 1))
        echo "$what: status $status, $(head -c 200 "$work/notes")"
    fi
}

same_output() { cmp -s "$work/out" "$work/whole"; }
no_output() { [ ! -s "$work/out" ]; }
tell() { echo "$1: $cases cases, $differ differ"; }

# Standard output that is closed, full, or a pipe whose reader went away.
for row in "${commands[@]}"; do
    read -r input words <<< "$row"
    "$program" $words < "$work/$input" >&- 2> "$work/notes"
    look "closed output, $words" 4 'pcs: write fault' $?
    "$program" $words < "$work/$input" > /dev/full 2> "$work/notes"
    look "full output, $words" 4 'pcs: write fault' $?
    { sleep 0.2; "$program" $words < "$work/$input" 2> "$work/notes"; echo $? > "$work/status"; } | true
    look "abandoned output, $words" 4 'pcs: write fault' "$(cat "$work/status")"
done
tell 'output that fails'

# Standard input that is closed, can't be read, or is a directory. `trial` reads nothing.
for row in "${commands[@]}"; do
    read -r input words <<< "$row"
    [ "${words%% *}" = trial ] && continue
    "$program" $words <&- > "$work/out" 2> "$work/notes"
    look "closed input, $words" 3 'pcs: read fault' $?
    "$program" $words 0> "$work/unread" > "$work/out" 2> "$work/notes"
    look "input that can't be read, $words" 3 'pcs: read fault' $?
    "$program" $words < . > "$work/out" 2> "$work/notes"
    look "a directory as input, $words" 3 'pcs: read fault' $?
done
tell 'input that fails'

# Standard error that is closed or full: the status tells it, and done runs are done.
: > "$work/notes"
for row in "${commands[@]}"; do
    read -r input words <<< "$row"
    "$program" $words < "$work/$input" > "$work/out" 2>&-
    look "closed notes, $words" 0 '' $?
    "$program" $words --none < "$work/$input" > "$work/out" 2>&-
    look "closed notes, $words --none" 12 '' $? no_output
    "$program" $words < "$work/$input" > /dev/full 2> /dev/full
    look "all is full, $words" 12 '' $?
    "$program" $words < "$work/$input" >&- 2>&-
    look "all is closed, $words" 12 '' $?
done
tell 'notes that fail'

# Input that comes octet by octet.
for row in "${commands[@]}"; do
    read -r input words <<< "$row"
    "$program" $words < "$work/$input" > "$work/whole" 2> /dev/null
    dd bs=1 status=none < "$work/$input" | "$program" $words > "$work/out" 2> "$work/notes"
    look "trickling input, $words" 0 '' "${PIPESTATUS[1]}" same_output
done
# A line is answered while the input goes on.
mkfifo "$work/in" "$work/back"
"$program" blocks < "$work/in" > "$work/back" 2> "$work/notes" &
running=$!
exec 4> "$work/in" 5< "$work/back"
answer=
printf '0 \n' >&4
read -r -t 10 answer <&5
printf '0 ' >&4
exec 4>&-
cat <&5 > "$work/out"
exec 5<&-
wait "$running"
look 'a line while the input goes on' 6 'pcs: line 2: no end' $?
[ "$answer" = '10 78555555555555d5' ] || { differ=$((differ + 1)); echo "no answer while the input goes on"; }
tell 'input that trickles'

# Runs a command under a limit and looks at how it ends. Where there is too little for the loader, the
# limit doesn't count. Above that it ends with status 5 where memory is refused, or by a signal where
# the stack can't grow, and nothing is written; and from some limit on as it does without one.
wanted_of() {
    wanted=0
    "$program" $words < "$work/$input" > "$work/whole" 2> "$work/wanted_notes" || wanted=$?
    started=no fine=no refused=0 killed=0
}
under() {
    local flag=$1 kilobytes=$2 status=0 line='pcs: no memory'
    # What the shell says of a program that was killed isn't shown.
    { (ulimit "$flag" "$kilobytes"; exec "$program" $words < "$work/$input" > "$work/out" 2> "$work/notes"); } 2> "$work/shell" || status=$?
    if [ "$started" = no ] && [ "$status" -gt 12 ] && [ "$status" != 139 ]; then
        return
    fi
    started=yes
    if [ "$fine" = no ] && [ "$status" = 139 ]; then
        killed=$kilobytes
        look "ulimit $flag $kilobytes, $words" 139 '' 139 no_output
    elif [ "$fine" = no ] && [ "$status" = 5 ]; then
        refused=$kilobytes
        # Without memory for its own words the program says nothing.
        [ -s "$work/notes" ] || line=
        look "ulimit $flag $kilobytes, $words" 5 "$line" 5 no_output
    else
        fine=yes
        look "ulimit $flag $kilobytes, $words" "$wanted" "$(cat "$work/wanted_notes")" "$status" same_output
    fi
}

# Limits on the address space. The receiver of a capture with the period 4096 asks for most. Just above
# what the loader needs the stack can't grow, so there the steps are of 20 kB.
"$program" encode --lead 0 --tail 0 < /dev/null > "$work/header"
for row in "${commands[@]}" "header decode" "header report" "header columns"; do
    read -r input words <<< "$row"
    wanted_of
    for kilobytes in 1000 2000 $(seq 2900 20 3300) 4000 5000 6000 8000 10000 12000 16000 24000 32000 48000 64000 96000 128000 192000; do
        under -v "$kilobytes"
    done
    [ "$refused" = 0 ] || echo "  $words on $input: status 5 up to $refused kB"
done
tell 'little address space'

# Limits on the stack, in steps of 20 kB: 256 kB are enough for each command.
most=0
for row in "${commands[@]}" "header decode" "header report" "header columns"; do
    read -r input words <<< "$row"
    wanted_of
    for kilobytes in $(seq 20 20 400); do
        under -s "$kilobytes"
    done
    [ "$killed" -le "$most" ] || most=$killed
    [ "$fine" = yes ] || { differ=$((differ + 1)); echo "$words: 400 kB of stack aren't enough"; }
done
[ "$most" -lt 240 ] || { differ=$((differ + 1)); echo "a stack of $most kB isn't enough"; }
echo "  a stack of $most kB isn't enough for some command, one of $((most + 20)) kB is for each"
tell 'little stack'

# No options of `encode` bring want of memory: each lead and each tail at each of some periods.
for period in 1 3 4095 4096; do
    for lead in 0 1 64; do
        for tail in 0 1 64; do
            "$program" encode --period $period --lead $lead --tail $tail < "$lines" 2> "$work/notes" | wc -c > "$work/out"
            look "period $period, lead $lead, tail $tail" 0 '' "${PIPESTATUS[0]}"
            least=$((16 + (lead + tail) * period * 1360))
            [ "$(cat "$work/out")" -gt "$least" ] || { differ=$((differ + 1)); echo "too few octets at period $period"; }
        done
    done
done
tell 'options of encode'

# Long input under a limit, so that no memory is taken for it.
limited() { (ulimit -v 160000; exec "$program" "$@" 2>> "$work/notes"); }
all_done() {
    local status
    for status in "$@"; do [ "$status" = 0 ] || return 1; done
}
: > "$work/notes"
count=$((megabytes * 1000000 / 3005))
octets=$(printf '5a%.0s' $(seq 1500))
yes "2 $octets" | head -n "$count" | limited blocks | limited unblock | uniq -c > "$work/out"
statuses=("${PIPESTATUS[@]:1}")
all_done "${statuses[@]}"
look "$megabytes MB of frame lines: ${statuses[*]}" 0 '' $?
[ "$(cat "$work/out")" = "$(printf '%7d %s' "$count" "$octets")" ] || { differ=$((differ + 1)); echo "the frames are others"; }
# A line with the greatest gap is 8.5 MB of capture. Half of the lanes lose a bit of their first marker in
# `demux`, so a lead of three periods lets them be found before the first frame.
count=$((megabytes * 10 / 85 + 1))
yes '1000000 010203' | head -n "$count" > "$work/long"
limited encode --period 64 --lead 3 < "$work/long" | limited migrate | limited impair order=fedcba9876543210 skew=3:77 \
    | limited mux --precode | limited demux --phase 9 | tee >(limited report > "$work/report"; echo "$?" > "$work/status") \
    | tee >(limited columns | tail -n 1 > "$work/columns") | limited decode | uniq -c > "$work/out"
statuses=("${PIPESTATUS[@]}")
sleep 5
report_status=$(cat "$work/status")
all_done "${statuses[@]}" "$report_status"
look "$megabytes MB of captures: ${statuses[*]} $report_status" 0 '' $?
[ "$(cat "$work/out")" = "$(printf '%7d 010203' "$count")" ] || { differ=$((differ + 1)); echo "the frames are others"; }
[ "$(grep -c '^frame 3$' "$work/report")" = "$count" ] || { differ=$((differ + 1)); echo "the report has other frames"; }
[ "$(cat "$work/columns")" = '10 1e00000000000000' ] || { differ=$((differ + 1)); echo "the columns end otherwise"; }
tell "$megabytes MB under a limit of 160 MB"
[ "$differ" = 0 ]
