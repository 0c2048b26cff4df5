#!/bin/bash
# Times a journal's calls: append and a book's apply by the entry, and state_at by the call at places that stand 0, 128 and 255
# entries after a checkpoint, of seven runs the least, the median and the most; and the memory that a full book takes.
# Builds bench/past_states.rt.in as a crate of a copy of the crates that it stands on (in TMPDIR), over what is proved of
# them already. Its source has this name since the gate reads each .rt file as part of a crate that it checks.
# Usage: bench/past_states.sh
set -eu
here=$(cd "$(dirname "$0")" && pwd)
copy=$(mktemp -d)
trap 'rm -rf "$copy"' EXIT
mkdir "$copy/crates"
cp "$here/../HANDLES" "$copy"
for crate in cell_types cell_rules cell_journal cell_reads plate_book; do
    cp -a "$here/../crates/$crate" "$copy/crates"
    grep "^$crate:" "$here/../crates.txt" >> "$copy/crates.txt"
done
mkdir -p "$copy/crates/past_states/src"
cp "$here/past_states.rt.in" "$copy/crates/past_states/src/main.rt"
echo "past_states: cell_types cell_journal plate_book" >> "$copy/crates.txt"
(cd "$copy/crates/past_states" && rt run -- append 1) > "$copy/said" 2>&1 || { tail -n 5 "$copy/said"; exit 1; }
program=$copy/crates/past_states/out/past_states
TIMEFORMAT=%R

# Of seven runs of a command the least, the median and the most, less a base in milliseconds, by the call, in nanoseconds.
per_call() {
    calls=$1 base=$2
    shift 2
    for _ in 1 2 3 4 5 6 7; do { time "$program" "$@" > /dev/null; } 2>&1; done | sort -n |
        awk -v base="$base" -v calls="$calls" '{ at[NR] = ($1 * 1000 - base) * 1e6 / calls } END { printf "%.0f, %.0f, %.0f", at[1], at[4], at[7] }'
}

# The median of seven runs of a command, in milliseconds.
median() {
    for _ in 1 2 3 4 5 6 7; do { time "$program" "$@" > /dev/null; } 2>&1; done | sort -n | sed -n 4p | awk '{ print $1 * 1000 }'
}

echo "append: $(per_call 1000000 "$(median append 0)" append 1000000) ns an entry (least, median, most of seven runs)"
echo "apply: $(per_call 1000000 "$(median apply 0)" apply 1000000) ns an entry"
full=$(median states 0 0)
for rest in 0 128 255; do
    calls=$((5000000 / (rest + 1)))
    echo "state_at, $rest entries after a checkpoint: $(per_call "$calls" "$full" states "$rest" "$calls") ns a call"
done
if [ -x /usr/bin/time ]; then
    /usr/bin/time -f 'a full journal of 1,000,000 entries: %M kB at most' "$program" append 1000000 > /dev/null
    /usr/bin/time -f 'a full book of 1,000,000 entries and 100,000 plates: %M kB at most' "$program" apply 1000000 > /dev/null
    /usr/bin/time -f 'the program without them: %M kB' "$program" append 0 2>&1 > /dev/null || true
fi
