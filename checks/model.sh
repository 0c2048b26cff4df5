#!/usr/bin/env bash
# Asks SPIN, a model checker, what `cellctl explore` is asked: examples/models/cell.pml states the cell's rules apart from the
# crates. With no machine that may fail, and with each of the six, it looks whether both find as many states and steps, as many
# steps to the farthest state, and as many finished and stuck states, and says each pair in a line. The last line says how many
# agree; the status is 1 if one doesn't. Where spin or cc isn't there it says so, and nothing is compared.
# Usage: checks/model.sh [PLATES]     from one plate up to PLATES, 1 to 4: 3 by default, which take two to three minutes of one
# processor; 4 take eleven, and 1 GB. The program is the one that ./cellctl runs; if there is none yet, ./cellctl --prove builds it.
# CELLCTL names another one.
set -uo pipefail
here=$(cd "$(dirname "$0")/.." && pwd) || exit 1
model=$here/examples/models/cell.pml
most=${1-3}
if [ $# -gt 1 ] || [[ $most != [1-4] ]]; then
    echo "model: PLATES is a whole number from 1 to 4" >&2
    exit 2
fi
# (another program is named spin too)
if [[ $(spin -V 2> /dev/null) != 'Spin Version'* ]]; then
    echo "model: there is no spin here, so nothing was compared"
    exit 0
fi
if ! command -v cc > /dev/null; then
    echo "model: there is no cc here, so nothing was compared"
    exit 0
fi
if [ -z "${CELLCTL-}" ] && [[ $("$here/cellctl" --which) == none* ]]; then
    echo "model: there is no program yet; ./cellctl --prove builds it, or CELLCTL names another one" >&2
    exit 3
fi
cellctl=$(readlink -f "${CELLCTL-$here/cellctl}") || exit 3
work=$(mktemp -d) || exit 1
trap 'rm -rf "$work"' EXIT
cd "$work" || exit 1

# The five numbers of explore, in the order of its lines.
explored() {
    "$cellctl" explore --limit 4294967295 ${2:+--fail "$2"} "$1" 2> errors | awk '{ print $NF }' | paste -sd ' '
}

# Makes a verifier of the model, with an option for spin, and runs it, with one of its own. Prints how many states, transitions and
# errors it finds, and how deep it goes; or nothing, if it doesn't look at all.
# verified PLATES MACHINE [OPTION OPTION]
verified() {
    rm -f pan pan.*
    spin "-Pcc -E -x c" -a -DPLATES="$1" ${2:+-DFAILS="$2"} ${3:+"$3"} "$model" > said 2>&1 &&
        cc -O1 -w -DSAFETY -DNOREDUCE -DBFS -o pan pan.c > said 2>&1 || return
    ./pan -c0 ${4:+"$4"} > said 2>&1
    grep -q 'Search not completed' said && return
    awk '/states, stored/ { states = $1 }
        /transitions \(= stored\+matched\)/ { transitions = $1 }
        match($0, /depth reached [0-9]+/) { depth = substr($0, RSTART + 14, RLENGTH - 14); errors = $NF }
        END { print states, transitions, errors, depth }' said
}

# The same five of SPIN. It counts the opening as a transition. With the claim in the model each end is one more, and is an error
# where the cell is stuck.
spun() {
    local states transitions ends stuck depth
    read -r states transitions _ depth < <(verified "$1" "$2" -DCOUNTS -E)
    read -r _ ends stuck _ < <(verified "$1" "$2")
    [ -n "${depth-}" ] && [ -n "${stuck-}" ] && echo "$states $((transitions - 1)) $depth $((ends - transitions - stuck)) $stuck"
}

# Five numbers in words.
told() {
    local numbers
    read -ra numbers <<< "$1"
    printf '%s states, %s steps, deepest %s, %s finished, %s stuck' "${numbers[@]}"
}

asked=0
agree=0
for ((plates = 1; plates <= most; plates++)); do
    for machine in '' feed table robot press1 press2 deposit; do
        question="$plates plate$([ "$plates" = 1 ] || echo s), ${machine:-none} may fail"
        due=$(explored "$plates" "$machine")
        found=$(spun "$plates" "$machine")
        asked=$((asked + 1))
        if [ -z "$found" ]; then
            echo "$question: $(told "$due"); SPIN finds nothing: $(tail -n 1 said)"
        elif [ "$found" != "$due" ]; then
            echo "$question: $(told "$due"); SPIN finds others: $(told "$found")"
        else
            echo "$question: $(told "$due"); SPIN finds the same"
            agree=$((agree + 1))
        fi
    done
done
echo "model: SPIN and explore agree on $agree of $asked questions"
[ "$agree" = "$asked" ]
