#!/usr/bin/env bash
# Lets the example methods drive the simulated cell, with no fault, and with a press that fails and an operator; looks at how
# each run ends, and that the hasty one breaks the rule that it says. Then it has compare.py print its table, and results.py
# a row of CSV of a method that breaks a rule and of one that writes nothing. Where python3 isn't there it says so and does
# nothing. Usage: checks/drive.sh     Build the program first: ./cellctl --prove does. CELLCTL names another one.
set -u
here=$(cd "$(dirname "$0")/.." && pwd) || exit 1
export CELLCTL=${CELLCTL:-$here/crates/cellctl/out/cellctl}
if ! command -v python3 > /dev/null; then
    echo "drive: there is no python3 here, so no method was tried"
    exit 0
fi
work=$(mktemp -d)
trap 'rm -rf "$work"' EXIT
cd "$here" || exit 1
mkfifo "$work/lines"
methods=examples/methods
failed=0

# Lets a method drive the cell by these words, and looks for the status and the lines that are due in what it is told.
# drive STATUS LINES METHOD WORDS...
drive() {
    local status=$1 lines=$2 method=$3 got line
    shift 3
    timeout 60 "$CELLCTL" drive "$@" < "$work/lines" 2> "$work/told" | timeout 60 "$methods/$method" > "$work/lines" 2> "$work/ended"
    got=${PIPESTATUS[0]}
    echo "drive: $method $*: $(head -n 1 "$work/ended"), status $got"
    if [ "$got" != "$status" ]; then
        echo "  wanted: status $status"
        failed=1
    fi
    while IFS= read -r line; do
        if ! grep -Fqx "$line" "$work/ended" "$work/told"; then
            echo "  wanted: a line $line"
            failed=1
        fi
    done <<< "$lines"
}

settings=examples/press_fails.toml
operator=examples/press_fails.operator
printf 'press_two,1,no_motion,\n' > "$work/faults"
safe=$'end,finished,,\ndelivered 6\nbroken 0\nlost 0'
drive 0 "$safe" careful.py --raw "$settings" /dev/null /dev/null
drive 0 "$safe" careful.py --raw "$settings" "$work/faults" "$operator"
drive 0 "$safe"$'\nuntrue 0' guarded.py "$settings" /dev/null /dev/null
drive 0 $'end,finished,,\nbroken 0\nlost 0\nuntrue 0' guarded.py "$settings" "$work/faults" "$operator"
rule=$(sed -n 's/^    \(ArmInPress in round .*\)$/\1/p' "$methods/hasty.py")
drive 1 "$rule" hasty.py --raw --explain "$settings" /dev/null /dev/null

start=$(date +%s)
if ! "$methods/compare.py" raw:"$methods/careful.py" raw:"$methods/hasty.py" "$methods/guarded.py"; then
    echo "  wanted: status 0 of compare.py"
    failed=1
fi
echo "drive: compare.py took $(($(date +%s) - start)) s"

# The second method writes nothing, and is ended after fifteen seconds.
printf '#!/bin/sh\nexec sleep 100\n' > "$work/mute"
chmod 755 "$work/mute"
cat > "$work/due" << 'EOF'
method,fault,end,delivered,lost,broken,rule,round,command,untrue,rounds
hasty.py,,finished,0,6,12,ArmInPress,29,"on,press_one,top,",,272
mute,,silent,,,,,,,,
EOF
timeout 60 examples/results.py --quick --csv --seconds 15 --only "raw:./$methods/hasty.py" --only "$work/mute" \
    > "$work/rows" 2> "$work/told"
if ! diff "$work/due" "$work/rows"; then
    echo "  wanted: these rows (< due, > printed) of results.py --csv"
    failed=1
fi
exit "$failed"
