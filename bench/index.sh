#!/bin/bash
# Says whether docs/INDEX.md is up to date with the sources. Where it isn't, prints the lines that
# differ, and ends with 1.
#
#     bench/index.sh
set -u
cd "$(dirname "$0")/.." || exit 1
made=$(mktemp) || exit 1
trap 'rm -f "$made"' EXIT
tools/promise-index > "$made" || exit 1
if diff docs/INDEX.md "$made"; then
    echo "docs/INDEX.md is up to date: $(grep -c '^| `' docs/INDEX.md) calls"
else
    echo "docs/INDEX.md isn't up to date: tools/promise-index > docs/INDEX.md"
    exit 1
fi
