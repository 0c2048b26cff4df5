#!/bin/sh
# Times the audit of a long legal journal against reading the same bytes alone, and, where rustc is there, against an audit
# in plain Rust, audit_peer.rs, which cuts the text by std's lines and split, or byte by byte. Where valgrind is there, it also counts the instructions that an entry takes, which don't
# depend on what else the machine does, and whose they are.
# Usage: bench/run.sh [PLATES]     13,000 plates by default, which are 987,986 entries (22 MB)
# CELLCTL=PROGRAM in the environment names another program than the one that was built.
set -eu
here=$(cd "$(dirname "$0")" && pwd)
cellctl=${CELLCTL:-$here/../crates/cellctl/out/cellctl}
plates=${1:-13000}
work=$(mktemp -d)
trap 'rm -rf "$work"' EXIT
journal=$work/journal
awk -v plates="$plates" -f "$here/journal.awk" > "$journal"
entries=$(($(wc -l < "$journal") - 1))
bytes=$(wc -c < "$journal")
echo "$entries entries, $bytes bytes"
peer=
if command -v rustc > /dev/null && rustc --edition 2021 -C opt-level=3 -o "$work/audit_peer" "$here/audit_peer.rs"; then
    peer=$work/audit_peer
fi

# Runs a program once, and keeps the least of its times, in nanoseconds, in the variable that is named first.
run_once() {
    name=$1
    shift
    start=$(date +%s%N)
    "$@" < "$journal" > /dev/null
    took=$(($(date +%s%N) - start))
    eval "least=\${$name:-$took}"
    if [ "$took" -lt "$least" ]; then least=$took; fi
    eval "$name=$least"
}

# Counts the instructions of a program, and tells how many each of its functions takes.
count_instructions() {
    valgrind --tool=callgrind --callgrind-out-file="$work/counts" "$@" < "$journal" > /dev/null 2>&1
    callgrind_annotate "$work/counts"
}

read_time=
audit_time=
peer_time=
lines_time=
for _ in 1 2 3 4 5 6 7 8 9; do
    run_once read_time cat
    run_once audit_time "$cellctl" audit
    if [ -n "$peer" ]; then
        run_once peer_time "$peer"
        run_once lines_time "$peer" lines
    fi
done
echo "reading the bytes alone: $((read_time / 1000)) microseconds"
echo "cellctl audit: $((audit_time / 1000)) microseconds, $((entries * 1000000000 / audit_time)) entries a second"
"$cellctl" audit < "$journal" | tee "$work/told"
if [ -n "$peer" ]; then
    echo "plain Rust by lines and split: $((lines_time / 1000)) microseconds; byte by byte: $((peer_time / 1000))"
    awk -v audit="$audit_time" -v peer="$peer_time" -v lines="$lines_time" \
        'BEGIN { printf "cellctl audit takes %.2f and %.2f times their times\n", audit / lines, audit / peer }'
    for word in "" lines; do
        "$peer" $word < "$journal" | cmp -s - "$work/told" || { echo "plain Rust prints something else"; exit 1; }
    done
else
    echo "plain Rust: not timed, since there is no rustc that builds it"
fi
if [ -x /usr/bin/time ]; then
    /usr/bin/time -f 'peak memory: %M kB' "$cellctl" audit < "$journal" > /dev/null
fi
if command -v valgrind > /dev/null && command -v callgrind_annotate > /dev/null; then
    count_instructions "$cellctl" audit | awk -v entries="$entries" '
        /%\)/ { count = $1; gsub(",", "", count); count = int(count / entries) }
        /PROGRAM TOTALS/ { print "instructions an entry: " count; next }
        /%\)/ && count >= 5 { sub(/^.*%\) *[^ :]*:/, ""); sub(/::<.*/, ""); sub(/ \[.*/, ""); print "  " count " in " $0 }'
    if [ -n "$peer" ]; then
        count_instructions "$peer" | awk -v entries="$entries" '
            /PROGRAM TOTALS/ { gsub(",", "", $1); print "instructions an entry of plain Rust: " int($1 / entries) }'
    fi
fi
