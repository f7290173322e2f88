#!/bin/bash
# Compares kcrun_listing with the plain program: the same listing, and at most 1.5 times the time on the largest file.
# Usage: bash bench/run.sh [PROGRAM [REPEATS]]
set -eu
cd "$(dirname "$0")/.."
program=${1:-crates/kcrun_listing/out/kcrun_listing}
repeats=${2:-200}
example=crates/kcrun_listing/stdin

if [ ! -x "$program" ]; then
    echo "bench: no program $program; build it with: (cd crates/kcrun_listing && rt run)" >&2
    exit 2
fi

folder=$(mktemp -d)
trap 'rm -rf "$folder"' EXIT
rustc --edition 2021 -C opt-level=3 -o "$folder/plain" bench/plain.rs
python3 bench/largest.py > "$folder/largest"

for file in "$example" "$folder/largest"; do
    "$folder/plain" < "$file" > "$folder/plain.listing"
    "$program" < "$file" > "$folder/program.listing"
    if ! difference=$(cmp "$folder/program.listing" "$folder/plain.listing" 2>&1); then
        echo "bench: the listings of $(basename "$file") differ:" >&2
        echo "$difference" >&2
        exit 1
    fi
done
echo "same listings: the example, and the largest file ($(wc -l < "$folder/plain.listing") lines)"

python3 bench/times.py "$program" "$folder/plain" "$folder/largest" "$example" "$repeats"
