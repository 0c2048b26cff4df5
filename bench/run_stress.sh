#!/bin/sh
# Runs the simulated cell on threads many times, by settings, faults and operator's scripts that a seed determines: each
# input once with --journal, whose journal has to be legal, and once without, whose first line tells the end. A run of more
# than ten seconds is a hang. A run without faults, stops and limits has to finish with all plates forged and delivered.
# The status is 1 where a run hangs, a journal isn't legal, or an end is wrong; the inputs of such a run are printed.
# Usage: bench/run_stress.sh [SEED [RUNS]]     seed 1 and 1,000 runs by default; CELLCTL names another program
set -eu
here=$(cd "$(dirname "$0")" && pwd)
cellctl=${CELLCTL:-$here/../cellctl}
seed=${1:-1}
runs=${2:-1000}
folder=$(mktemp -d)
trap 'rm -r "$folder"' EXIT
hangs=0
illegal=0
wrong=0
: > "$folder/ends"

# Says what is wrong with a run, and prints its inputs.
complain() {
    echo "run $run: $1"
    for text in settings faults operator; do
        echo "--- $run.$text"
        cat "$folder/$run.$text"
    done
    echo "---"
}

# Runs the cell by the run's inputs. Sets the status.
simulate() {
    status=0
    timeout 10 "$cellctl" run "$@" "$folder/$run.settings" "$folder/$run.faults" "$folder/$run.operator" \
        > "$folder/printed" 2> "$folder/errors" || status=$?
}

# The number that a file's line gives for a word.
number() {
    awk -v word="$1" '$1 == word { print $2 }' "$2"
}

# Whether a finished run's totals are right: all plates came, each is delivered or in quarantine, and of a plain run all
# are forged and delivered.
is_complete() {
    delivered=$(number delivered "$1")
    quarantined=$(number quarantined "$1")
    [ "$(number admitted "$1")" = "$plates" ] && [ "$((delivered + quarantined))" = "$plates" ] || return 1
    [ "$kind" != plain ] || { [ "$(number forged "$1")" = "$plates" ] && [ "$delivered" = "$plates" ]; }
}

# Whether an end with this status is one that the run may have, by the totals in the file.
is_due() {
    case $1,$2 in
        0,finished) is_complete "$3" ;;
        1,stalled | 1,"turn limit" | 1,full | 1,"other end") [ "$kind" != plain ] ;;
        *) return 1 ;;
    esac
}

# Tells a hang, or notes the end of a run, which the file's totals have to fit.
judge() {
    if [ "$status" = 124 ]; then
        hangs=$((hangs + 1))
        complain "no end after ten seconds"
        return
    fi
    echo "$1" >> "$folder/ends"
    if ! is_due "$status" "$1" "$2"; then
        wrong=$((wrong + 1))
        complain "status $status and '$1' of a run of $plates plates ($kind)"
        cat "$folder/errors" "$2"
    fi
}

# Runs the cell with --journal, and audits what is printed.
run_with_journal() {
    simulate --journal
    if [ "$status" != 124 ] && ! "$cellctl" audit < "$folder/printed" > "$folder/audit"; then
        illegal=$((illegal + 1))
        complain "a journal that isn't legal: $(head -n 1 "$folder/audit")"
        return
    fi
    end="other end"
    [ "$status" != 0 ] || end=finished
    judge "$end" "$folder/audit"
}

awk -v seed="$seed" -v runs="$runs" -v folder="$folder" -f "$here/stress.awk" > "$folder/runs"
"$cellctl" --help > "$folder/help"
while read -r run plates kind; do
    run_with_journal
    simulate
    judge "$(head -n 1 "$folder/printed")" "$folder/printed"
done < "$folder/runs"
echo "seed $seed: $runs inputs ($(grep -c plain "$folder/runs") without faults, stops and limits), each run twice"
echo "ends, of runs with --journal only whether they finished:"
sort "$folder/ends" | uniq -c
echo "$hangs hangs, $illegal journals that aren't legal, $wrong wrong ends"
[ "$hangs" = 0 ] && [ "$illegal" = 0 ] && [ "$wrong" = 0 ]
