#!/bin/bash
# Refuses the built program one allocation after the other, the first, the second, and so on until a
# run asks for no more, and looks how each run ends: as it does with ample memory, or with status 5,
# nothing on standard output, and on standard error its line or, without memory for the words, nothing.
# Prints a line for each command, and stops at the first run that ends otherwise.
set -eu
cd "$(dirname "$0")/.."
program=${1:-$PWD/crates/pcs_cli/out/pcs_cli}
command -v cc > /dev/null || { echo "refused_memory: no C compiler here"; exit 0; }
work=$(mktemp -d)
trap 'rm -rf "$work"' EXIT

cat > "$work/refuse.c" <<'C'
#define _GNU_SOURCE
#include <dlfcn.h>
#include <fcntl.h>
#include <stdlib.h>
#include <unistd.h>

static long left = -1;

static int is_refused(void) {
    if (left < 0) left = atol(getenv("REFUSED_CALL"));
    if (left == 0 || --left > 0) return 0;
    close(open(getenv("REFUSED_MARK"), O_CREAT | O_WRONLY, 0600));
    return 1;
}

void *malloc(size_t size) {
    static void *(*next)(size_t);
    if (!next) next = dlsym(RTLD_NEXT, "malloc");
    return is_refused() ? NULL : next(size);
}

void *realloc(void *old, size_t size) {
    static void *(*next)(void *, size_t);
    if (!next) next = dlsym(RTLD_NEXT, "realloc");
    return is_refused() ? NULL : next(old, size);
}
C
cc -shared -fPIC -O2 -o "$work/refuse.so" "$work/refuse.c" -ldl

# Runs a command on an input, with the allocation of this number refused; 0 refuses none.
run() {
    local call=$1 input=$2 status=0
    shift 2
    rm -f "$work/mark"
    LD_PRELOAD="$work/refuse.so" REFUSED_CALL=$call REFUSED_MARK="$work/mark" \
        "$program" "$@" < "$input" > "$work/out" 2> "$work/notes" || status=$?
    echo "$status" >> "$work/notes"
}

try() {
    local call=1 refused=0
    run 0 "$@"
    cp "$work/out" "$work/whole"
    cp "$work/notes" "$work/whole_notes"
    while run "$call" "$@"; [ -e "$work/mark" ]; do
        if cmp -s "$work/out" "$work/whole" && cmp -s "$work/notes" "$work/whole_notes"; then
            :
        elif [ ! -s "$work/out" ] && { printf 'pcs: no memory\n5\n' | cmp -s - "$work/notes" || echo 5 | cmp -s - "$work/notes"; }; then
            refused=$((refused + 1))
        else
            echo "allocation $call of $2 ends otherwise:"
            cat "$work/notes"
            exit 1
        fi
        call=$((call + 1))
    done
    printf '%-8s %3d allocations, %3d of which end it with status 5\n' "$2" $((call - 1)) "$refused"
}

lines=examples/frames.txt
"$program" blocks < "$lines" > "$work/block_lines"
"$program" encode --period 1 --lead 3 < "$lines" > "$work/capture"
"$program" mux < "$work/capture" > "$work/levels"
"$program" decode < "$work/capture" > "$work/frames"
{ printf '000%.0s' $(seq 513); echo 001; } > "$work/symbols"
try "$lines" blocks
try "$work/block_lines" unblock
try "$lines" encode --period 1
try "$work/capture" decode
try "$work/capture" report
try "$work/capture" columns
try "$work/capture" impair order=fedcba9876543210 skew=0:300 noise=1:40
try /dev/null trial 7 3
try "$work/capture" migrate
try "$work/capture" mux
try "$work/levels" demux
try "$work/symbols" kr
printf '%s\n' 010203 aabb > "$work/text"
"$program" pcap --write < "$work/text" > "$work/packets"
try "$work/packets" pcap
try "$work/text" pcap --write
