#!/usr/bin/env bash
# Times `cellctl control` beside a C program that answers at once: 100,000 rounds, three runs. Build the program first.
set -euo pipefail
here=$(cd "$(dirname "$0")" && pwd)
cellctl=${CELLCTL:-$here/../crates/cellctl/out/cellctl}
folder=$(mktemp -d)
trap 'rm -r "$folder"' EXIT
gcc -O2 -Wall -o "$folder/still" "$here/still_cell.c"
mkfifo "$folder/lines"
printf 'plates = 6\nturns = 100000\n' > "$folder/settings.toml"
for _ in 1 2 3; do
    start=$(date +%s.%N)
    "$folder/still" < "$folder/lines" | "$cellctl" control "$folder/settings.toml" /dev/null > "$folder/lines" 2> "$folder/told" || true
    head -n 1 "$folder/told" | grep -qx 'turn limit'
    awk -v start="$start" -v end="$(date +%s.%N)" 'BEGIN { printf "%.2f s, %d rounds a second\n", end - start, 100000 / (end - start) }'
done
