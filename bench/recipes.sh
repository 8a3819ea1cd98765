#!/bin/bash
# Runs each block of docs/RECIPES.md as it stands, in a folder of its own, and prints which of them
# failed, and which were left out since what their first line needs is missing.
#
#     bench/recipes.sh [PROGRAM]
set -u
top=$(cd "$(dirname "$0")/.." && pwd) || exit 1
program=$(readlink -f -- "${1:-$top/crates/pcs_cli/out/pcs_cli}")
library=$top/crates/pcs_c/out/libpcs_c.a
work=$(mktemp -d)
trap 'rm -rf "$work"' EXIT
mkdir "$work/bin"
ln -s "$program" "$work/bin/pcs"
PATH=$work/bin:$PATH

awk -v work="$work" '/^```sh$/ { n++; inside = 1; next } /^```$/ { inside = 0 }
    inside { print > (work "/block" n) }' "$top/docs/RECIPES.md"

# Whether all that a block needs is here.
here() {
    local need
    for need in $(head -n 1 "$1" | grep "^# needs: " | cut -d " " -f 3-); do
        if [ "$need" = matplotlib ]; then
            /usr/bin/python3 -c 'import matplotlib' 2> /dev/null || return 1
        elif [ "$need" = libpcs_c.a ]; then
            [ -e "$library" ] || return 1
        else
            command -v "$need" > /dev/null || return 1
        fi
    done
}

passed=0 failed=0 left_out=0
for block in $(printf '%s\n' "$work"/block* | sort -V); do
    name=$(basename "$block")
    if ! here "$block"; then
        left_out=$((left_out + 1))
        echo "$name: left out, $(sed -n '1s/^# //p' "$block")"
        continue
    fi
    mkdir "$work/at_$name"
    ln -s "$top/examples" "$top/include" "$top/tools" "$work/at_$name"
    [ ! -e "$library" ] || ln -s "$library" "$work/at_$name"
    if (cd "$work/at_$name" && bash -eu -o pipefail "$block") > "$block.out" 2>&1; then
        passed=$((passed + 1))
    else
        failed=$((failed + 1))
        echo "$name failed:"
        tail -n 5 "$block.out"
    fi
done
echo "$passed passed, $failed failed, $left_out left out"
[ "$failed" = 0 ]
