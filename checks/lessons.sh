#!/usr/bin/env bash
# Tries what is there to teach with: each journal of examples/rules is refused at its last entry and explained as it says, and
# each list of commands there breaks the rules that it says, all rules together; each exercise's starting file is no solution,
# and its solution is one; the floor plan is what the program draws. Where python3 isn't there it says so and leaves the exercises
# out. Usage: checks/lessons.sh     Build the program first: ./cellctl --prove does. CELLCTL names another one.
set -u
here=$(cd "$(dirname "$0")/.." && pwd) || exit 1
export CELLCTL=${CELLCTL:-$here/crates/cellctl/out/cellctl}
work=$(mktemp -d) || exit 1
trap 'rm -rf "$work"' EXIT
cd "$here" || exit 1
tried=0
failed=0

wrong() {
    echo "lessons: $1"
    failed=1
}

# A journal is refused at its last entry, in the words that stand beside it.
journals() {
    local file last
    for file in examples/rules/*.journal; do
        tried=$((tried + 1))
        last=$(($(wc -l < "$file") - 1))
        grep -qF "\`$(basename "$file" .journal)\`" examples/rules/README.md || wrong "examples/rules/README.md lacks $file"
        "$CELLCTL" audit "$file" | grep -q "^refused $last " || wrong "$file isn't refused at entry $last"
        "$CELLCTL" explain "$file" | diff - "${file%.journal}.explained" || wrong "$file is explained in other words"
    done
}

# Commands break the rules that stand beside them, and the run tells so.
commands() {
    local file operator status
    for file in examples/rules/*.commands; do
        tried=$((tried + 1))
        operator=${file%.commands}.operator
        [ -e "$operator" ] || operator=/dev/null
        "$CELLCTL" drive --raw --explain examples/press_fails.toml /dev/null "$operator" < "$file" > "$work/told" 2> "$work/broken"
        status=$?
        [ "$status" = 1 ] || wrong "$file: status $status in place of 1"
        diff "$work/broken" "${file%.commands}.broken" || wrong "$file breaks other rules"
        cut -d ' ' -f 1 "$work/broken" >> "$work/names"
    done
}

# Each row of the table of rules has a journal, and each rule of the world has commands that break it.
rules() {
    local rows names row name
    rows=$(sed -n '/^| Rule /,/^$/p' docs/SAFETY.md | grep -c '^| [0-9]* | [A-Z].*`')
    names=$(sed -n '/^## The rules in the simulated world/,/^## /s/^| `\([A-Za-z]*\)` |.*/\1/p' docs/SAFETY.md)
    [ "$rows" -gt 0 ] && [ -n "$names" ] || wrong "docs/SAFETY.md has no tables of rules"
    for row in $(seq "$rows"); do
        compgen -G "examples/rules/$(printf %02d "$row")_*.journal" > /dev/null || wrong "row $row of the rules has no journal"
    done
    for name in $names; do
        grep -qx "$name" "$work/names" || wrong "no commands break $name"
    done
}

# The starting file is no solution, and the solution is one.
exercise() {
    local folder=$1 number=${1##*/}
    number=${number%%_*}
    tried=$((tried + 1))
    timeout 300 examples/exercises/check.py "$number" "$folder"/start.* > "$work/start"
    [ $? = 1 ] && grep -q "^exercise $number: not yet: " "$work/start" || wrong "the starting file of $folder is taken: $(cat "$work/start")"
    timeout 300 examples/exercises/check.py "$number" "$folder"/solution/solved.* > "$work/solved" || wrong "$folder: $(cat "$work/solved")"
}

exercises() {
    local folder
    if ! command -v python3 > /dev/null; then
        echo "lessons: there is no python3 here, so no exercise was tried"
        return
    fi
    for folder in examples/exercises/[0-9]_*; do
        exercise "$folder"
    done
}

# The floor plan is what the program draws.
floor_plan() {
    "$CELLCTL" show --svg --file examples/whole.journal 0 | cmp - docs/pictures/floor_plan.svg || wrong "the floor plan is another one"
}

# The rows without a fault of the table of results come again.
results() {
    local line
    command -v python3 > /dev/null || return
    timeout 300 examples/results.py --quick > "$work/results" || wrong "examples/results.py fails"
    while IFS= read -r line; do
        grep -qFx "$line" docs/METHODS.md || wrong "docs/METHODS.md hasn't the row $line"
    done < <(grep '^|' "$work/results")
}

journals
commands
rules
results
exercises
floor_plan
echo "lessons: $tried files and exercises tried; $([ $failed = 0 ] && echo all as due || echo some are another)"
exit $failed
