#!/usr/bin/env bash
# bench/digits.sh
# Times the kit's hex alone on random digits in a proved program, and beside it what pcs takes for
# the digits of frame lines (blocks, encode) and of block lines (unblock), by turns; the least times
# count. Makes and removes a folder of its own.
set -eu
. "$(dirname "$0")/turns.sh"
# Builds the program where it isn't built yet.
"$top/pcs" blocks < /dev/null
program=$top/crates/pcs_cli/out/pcs_cli
head -c 15180000 /dev/urandom | od -An -v -tx1 | tr -d ' \n' | fold -w 3036 | sed 's/^/2 /; $a\' > "$work/frames"
"$program" blocks < "$work/frames" > "$work/blocks"
cat > "$work/beside" <<SCRIPT
#!/usr/bin/env bash
TIMEFORMAT=%U
each() {
    seconds=\$({ time "$program" \$3 < "\$1" > /dev/null; } 2>&1)
    echo "\${3%% *} \$seconds \$2" | awk '{ printf "%s %d nanoseconds for %d thousand digits\n", \$1, \$2 * 1e9, \$3 / 1000 }'
}
each "$work/frames" 30360000 blocks
each "$work/frames" 30360000 "encode --lead 2 --tail 0"
each "$work/blocks" $((16 * $(wc -l < "$work/blocks"))) unblock
SCRIPT
chmod +x "$work/beside"
beside=$work/beside
take_turns digits "" hex
show_times
