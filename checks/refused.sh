#!/usr/bin/env bash
# Refuses memory: to calls that take memory (calls) and to the program (program), its first allocation, then its second,
# and so on until a run ends with none refused; and once more with all allocations refused from that one on. Each run has to
# give want of memory, or the answer with ample memory. docs/HOSTILE.md says how.
# The crates' tests and the program have to be built: by `rt ci`, or by `rt test` in the crates' folders and `rt run` in
# cellctl's.
# The tests of the calls and the command lines run side by side, one a processor. Each command and each option that the program's
# helps list has to be in a command line that is tried. With `calls` and `program` each of the program's seven threads is refused
# too, one a run. CELLCTL names another program than the one that was built.
# Usage: checks/refused.sh [calls|program [COMMAND]|part [NUMBER]|table]     calls and program by default; with COMMAND its command
# lines alone; part: each eighth command line, from that of the number on, or by turns: from one further with each commit; table:
# both, and writes what came of them into the table of docs/HOSTILE.md
set -euo pipefail
# A byte is a letter, also where the program writes others.
export LC_ALL=C
here=$(cd "$(dirname "$0")" && pwd)
crates=$here/../crates
examples=$here/../examples
source "$here/helps.sh"
folder=$(mktemp -d)
trap 'rm -r "$folder"' EXIT
library=${REFUSE_LIBRARY:-$folder/refuse.so}
[ -e "$library" ] || gcc -O2 -Wall -shared -fPIC -o "$library" "$here/refuse.c"
most=5000
step=1
wrong=0
# How many runs were made, and where the files of the program's lines are.
made=0
shared=${REFUSE_SHARED:-}
# The rows of the table, and the runs and the wrong ones that stand in them.
rows=()
told_made=0
told_wrong=0
page=$here/../docs/HOSTILE.md
table_begins='<!-- The table is written by checks/refused.sh table. -->'
table_ends='<!-- The table ends. -->'
# Of which command alone the lines are tried; how many parts they are in, and which of them is tried.
only=
parts=1
part=0
newline=$'\n'

# Reads a file into the variable of a name, as it stands.
read_whole() {
    IFS= read -r -d '' "$2" < "$1" || true
}

# Runs a command with the allocation of a number refused, or all from there on. Standard input is $folder/input.
# Sets the status, what was written, and how many allocations counted, how many were refused and how many marked calls wanted memory.
run_refused() {
    local first=$1 onward=$2 whole=$3
    shift 3
    : > "$folder/counts"
    status=0
    timeout 30 env LD_PRELOAD="$library" REFUSE_FIRST="$first" REFUSE_ONWARD="$onward" REFUSE_WHOLE="$whole" \
        REFUSE_COUNTS="$folder/counts" "$@" < "$folder/input" > "$folder/output" 2> "$folder/errors" || status=$?
    # By a file: bash keeps the status of a process substitution under its number, and takes it for that of a later process
    # which gets the same number.
    od -An -v -tu8 -w24 "$folder/counts" > "$folder/numbers"
    read -r counted refused wanted < "$folder/numbers"
    read_whole "$folder/output" output
    read_whole "$folder/errors" errors
    made=$((made + 1))
}

# Runs a command until a run has none refused. Each run is judged by a function, which says whether it is right.
# Sets how many runs had memory refused, and how many of them told it.
refuse_each() {
    local judge=$1 name=$2 onward=$3 whole=$4 first
    shift 4
    runs=0 told=0
    for ((first = 1; first <= most * step; first += step)); do
        run_refused "$first" "$onward" "$whole" "$@"
        if ! "$judge"; then
            wrong=$((wrong + 1))
            echo "$name: wrong with number $first of $counted refused (and all after it: $onward): status $status"
            head -c 2000 "$folder/errors" "$folder/output"
        fi
        [ "$refused" != 0 ] || return 0
        runs=$((runs + 1))
        [ "$wanted" = 0 ] || told=$((told + 1))
    done
    wrong=$((wrong + 1))
    echo "$name: memory was still refused after $most runs"
}

# Refuses memory to a command in both ways, and prints how many runs that took, and how many of them told want of memory. A
# test without marks doesn't say that.
refuse_both() {
    local judge=$1 name=$2 once onward
    shift 2
    refuse_each "$judge" "$name" 0 "$@"
    once="$runs runs with one refused ($told told it)"
    refuse_each "$judge" "$name" 1 "$@"
    onward="$runs with all from one on ($told told it)"
    [ "$judge$1" != test_is_right1 ] || once=${once% (*} onward=${onward% (*}
    echo "$name: $once, $onward"
    if [ "$runs" = 0 ]; then
        wrong=$((wrong + 1))
        echo "$name: no allocation was refused"
    fi
}

# A test passed, and it told want of memory only where memory was refused.
test_is_right() {
    [ "$status" = 0 ] && { [ "$refused" != 0 ] || [ "$wanted" = 0 ]; }
}

# Refuses memory to one test of a crate, and notes how many of its runs were wrong.
refuse_test() {
    local crate=$1 whole=$2 test=$3
    : > "$folder/input"
    refuse_both test_is_right "${test##*:}" "$whole" "$crates/$crate/out/${crate}_tests" "$test"
    echo "$wrong $made" >> "$REFUSE_TALLY"
}

# The tests of a crate whose names have a word, a line each, as refuse_test takes them.
list_tests() {
    local crate=$1 word=$2 whole=$3
    "$crates/$crate/out/${crate}_tests" --list | sed -n "/$word/s/^\(.*\): test\$/$crate $whole \1/p"
}

# Refuses one of the program's threads a run: each time it has to tell that alone.
refuse_threads() {
    local number run=("$examples/press_fails.toml" "$examples/press_fails.faults" "$examples/press_fails.operator")
    printf '%s\n' 'out of memory' 'cellctl: run: no thread could be started' > "$folder/due.errors"
    for number in 1 2 3 4 5 6 7; do
        status=0
        timeout 30 env LD_PRELOAD="$library" REFUSE_THREAD="$number" "$cellctl" run "${run[@]}" \
            < /dev/null > "$folder/output" 2> "$folder/errors" || status=$?
        if [ "$status" != 4 ] || [ -s "$folder/output" ] || ! cmp -s "$folder/errors" "$folder/due.errors"; then
            wrong=$((wrong + 1))
            echo "run: wrong with thread $number refused: status $status"
            head -c 2000 "$folder/errors" "$folder/output"
        fi
        made=$((made + 1))
    done
    echo "run: 7 runs with one thread refused"
}

refuse_calls() {
    local crate
    {
        list_tests test_refused '::' 0
        list_tests test_workers 'refusals::' 0
        list_tests test_orders 'command::refused::' 1
    } > "$folder/tests"
    for crate in test_refused test_workers test_orders; do
        if ! grep -q "^$crate " "$folder/tests"; then
            wrong=$((wrong + 1))
            echo "$crate: no test to which memory could be refused"
        fi
    done
    : > "$folder/tally"
    REFUSE_LIBRARY=$library REFUSE_TALLY=$folder/tally xargs -r -P "$(nproc)" -L 1 "$here/refused.sh" test < "$folder/tests" || true
    add_tally "$folder/tests" "$folder/tally"
}

# Adds what the tests or lines of a list noted of their runs. One that noted nothing came to no end, and is wrong.
add_tally() {
    wrong=$((wrong + $(awk '{ sum += $1 } END { print sum + 0 }' "$2") + $(wc -l < "$1") - $(wc -l < "$2")))
    made=$((made + $(awk '{ sum += $2 } END { print sum + 0 }' "$2")))
}

# The text is `out of memory`, and below it nothing, or the line of the file for which there was none, or that a thread lacked it.
has_want() {
    local below="(cellctl: /[^$newline]*: no memory for it|cellctl: run: no thread could be started)$newline"
    [[ $1 =~ ^out\ of\ memory$newline($below)?$ ]]
}

# The text is the lines of a run that ended for want of memory.
is_end_for_want() {
    [[ $1 =~ ^memory${newline}admitted\ [0-9]+${newline}forged\ [0-9]+${newline}quarantined\ [0-9]+${newline}delivered\ [0-9]+$newline$ ]]
}

# The text is a first part of another.
is_first_part() {
    [ "${2:0:${#1}}" = "$1" ]
}

# The program told want of memory: by its status and on standard error, and it had written a first part of what is due, or
# the lines of a run that ended so.
tells_want() {
    [ "$status" = 4 ] && has_want "$errors" || return 1
    wanted=1
    is_first_part "$output" "$due_output" || is_end_for_want "$output"
}

# The program gave the answer with ample memory, or told want of it where it was refused.
answer_is_right() {
    [ "$status" = "$due" ] && [ "$output" = "$due_output" ] && [ "$errors" = "$due_errors" ] && return 0
    [ "$refused" != 0 ] && tells_want
}

# The same where several journals are measured: above `out of memory` the lines of those that are refused may stand, as they are due.
measures_are_right() {
    answer_is_right && return 0
    [ "$refused" != 0 ] && [ "$status" = 4 ] && [ "${errors#"$due_errors"}" != "$errors" ] || return 1
    has_want "${errors#"$due_errors"}" || return 1
    wanted=1
    is_first_part "$output" "$due_output"
}

# What was said of a run's end, but for how often a machine set out: that isn't the same each time where the run is on threads.
without_motions() {
    sed 's/: it set out [0-9]* times\{0,1\}$/: it set out/' <<< "$1"
}

# What was said of a run's end before `out of memory`: a first part of what is due, after all that is due on standard output; or,
# where the run ended for want of memory, lines on that end.
is_part_of_ending() {
    if [ "${output%%"$newline"*}" = memory ]; then
        ! grep -v -q -e '^[a-z].* is failed since entry [0-9]*: ' -e "^line [0-9]*, record [0-9]* of the operator's script isn't done: " \
            -e '^plate [0-9]* is [a-z].*; next is ".*", ' -e '^the fault in motion [0-9]* of .* was never reached: ' \
            -e "^[0-9]* plates\{0,1\} w[a-z]*n't admitted$" -e '^[0-9]* plates\{0,1\} w[a-z]* laid back$' <<< "${1%"$newline"}"
    else
        [ "$output" = "$due_output" ] && is_first_part "$(without_motions "$1")" "$(without_motions "$due_errors")"
    fi
}

# The same of a run whose end is explained: where memory is refused, a part of that may stand before `out of memory`.
ending_is_right() {
    if [ "$status" = "$due" ] && [ "$output" = "$due_output" ] &&
        [ "$(without_motions "$errors")" = "$(without_motions "$due_errors")" ]; then
        return 0
    fi
    [ "$refused" != 0 ] || return 1
    tells_want && return 0
    [ "$status" = 4 ] && [ "${errors%"out of memory$newline"}" != "$errors" ] || return 1
    wanted=1
    is_part_of_ending "${errors%"out of memory$newline"}"
}

# The same of a run on threads, whose journal isn't the same each time: where it is whole it has the totals that are due,
# and no entry of it is refused where it is cut.
journal_is_right() {
    local audited
    audited=$("$cellctl" audit < "$folder/output" || true)
    [ "$status" = "$due" ] && [ "${audited#*"$newline"}" = "$due_totals" ] && return 0
    [ "$refused" != 0 ] && [ "$status" = 4 ] && has_want "$errors" || return 1
    wanted=1
    [[ $audited != refused* ]]
}

# The measures of a run without their numbers: on threads those aren't the same each time.
measures_of() {
    sed 's/\( [0-9.-]*\)*$//' <<< "$1"
}

# The same of a run on threads with its measures: its lines are the same each time, and so is what is measured. Where memory is
# refused no measures follow.
least_is_right() {
    local lines=${due_output%%time *}
    [ "$status" = "$due" ] && [ "$errors" = "$due_errors" ] && [ "${output%%time *}" = "$lines" ] &&
        [ "$(measures_of "$output")" = "$(measures_of "$due_output")" ] && return 0
    [ "$refused" != 0 ] && [ "$status" = 4 ] && has_want "$errors" || return 1
    wanted=1
    is_first_part "$output" "$lines" || is_end_for_want "$output"
}

# The same of a method that drives the cell, which has written all its lines: the errors have a first part of what is due there,
# and then `out of memory`, and the output a first part of what is due there, or the end `memory`.
driving_is_right() {
    answer_is_right && return 0
    [ "$refused" != 0 ] && [ "$status" = 4 ] && [ "${errors%"out of memory$newline"}" != "$errors" ] || return 1
    wanted=1
    is_first_part "${errors%"out of memory$newline"}" "$due_errors" || return 1
    is_first_part "$output" "$due_output" || [[ $newline$output == *"${newline}end,memory,,$newline"* ]]
}

# The lines that stop all machines and end the run of a cell that is controlled.
stops=$(printf 'all_off,%s,,\n' feed table robot press1 press2 deposit)$newline
# The same of a cell that is controlled, of which all is told on standard error: `out of memory` comes last, or the lines of a run
# that ended for want of memory; what is written is a first part of what is due, and maybe that all machines stop.
controlling_is_right() {
    answer_is_right && return 0
    [ "$refused" != 0 ] && [ "$status" = 4 ] || return 1
    is_end_for_want "$errors" || [ "${errors%"out of memory$newline"}" != "$errors" ] || return 1
    wanted=1
    local sent=${output%"quit,,,$newline"}
    is_first_part "${sent%"$stops"}" "$due_output"
}

# Refuses memory to the program on the words of a line of `program_lines`, after a run with ample memory, and notes how many runs
# that took and how many were wrong. The totals of the run on threads with its journal are those of its plate.
refuse_line() {
    local judge=$1 input=$3
    step=$2
    shift 3
    cp "$shared/$input" "$folder/input"
    due_totals=$(printf '%s\n' 'admitted 1' 'forged 1' 'quarantined 0' 'delivered 1' 'reinstated 0')
    run_refused 0 0 1 "$cellctl" "$@"
    due=$status due_output=$output due_errors=$errors
    refuse_both "$judge" "cellctl $(sed -e "s|$shared/||g" -e "s|$examples/||g" <<< "$*")" 1 "$cellctl" "$@"
    echo "$wrong $made" >> "$REFUSE_TALLY"
}

# The files of a short run in rounds, whose only plate is taken from the feed belt by hand, of texts that are refused, of a
# method's lines, and of journals.
write_files() {
    shared=$folder
    : > "$shared/nothing"
    echo 'plates = 1' > "$shared/short.toml"
    printf '%s\n' 'plates = 1' '[watch.press_one]' 'limit = 2000' > "$shared/refused.toml"
    printf '%s\n' profile,2,, lamp,feed,green, admited,1,, > "$shared/unreadable.journal"
    printf '%s\n' press_two,1,no_motion, press_two,99,no_motion, > "$shared/unreached.faults"
    echo '"press_two",1,no_motion,' > "$shared/short.faults"
    printf '%s\n' admitted,1,stop,feed failed,feed,clear,feed_in '"failed",feed,repair,feed' > "$shared/short.operator"
    printf '%s\n' lamp,feed,green, done,,, lamp,feed,red, done,,, quit,,, > "$shared/method"
    printf '%s\n' drive,1,1, operator,stop,press1, reading,feed,, reading,table,low/belt, reading,robot,table1/in/in, \
        reading,press1,middle, reading,press2,middle, reading,deposit,, round,1,, ok,,, ok,,, end,quit,, > "$shared/cell"
    cp "$examples/whole.journal" "$examples/refused.journal" "$shared"
    "$cellctl" sim --journal "$shared/short.toml" "$shared/short.faults" "$shared/short.operator" > "$shared/short.journal"
    cp "$shared/short.journal" "$shared/kept.journal"
    sed '3,$s/^\([a-z_]*\),/"\1",/' "$shared/short.journal" > "$shared/quoted.journal"
    sed '1s/^profile,2/profile,1/' "$shared/quoted.journal" > "$shared/old.journal"
}

# The lines of the commands that judge, show, explain and measure texts, by a function that takes of each its judge, of how many
# allocations one is refused, what standard input has, and its words.
text_lines() {
    local line=$1 whole=$examples/whole.journal times=$examples/measures/times.toml
    $line answer_is_right 1 short.journal audit
    $line answer_is_right 1 quoted.journal audit
    $line answer_is_right 1 nothing audit "$whole"
    $line answer_is_right 1 old.journal migrate
    $line answer_is_right 1 nothing migrate "$shared/old.journal"
    $line answer_is_right 1 whole.journal show
    $line answer_is_right 1 whole.journal show --unicode
    $line answer_is_right 1 whole.journal show --svg
    $line answer_is_right 1 whole.journal show --html --beside "$examples/refused.journal"
    $line answer_is_right 1 whole.journal show --html --times "$times"
    $line answer_is_right 1 whole.journal show --html --from 20 --count 10
    $line answer_is_right 1 nothing show --svg --animate "$whole" 30
    $line answer_is_right 1 nothing show --file "$whole" 30
    $line answer_is_right 1 nothing show -f "$whole" 99999999999999999999
    $line answer_is_right 1 whole.journal explain
    $line answer_is_right 1 refused.journal explain
    $line answer_is_right 1 unreadable.journal explain
    $line answer_is_right 1 nothing explain "$examples/refused.journal"
    $line answer_is_right 1 nothing explain --settings "$shared/refused.toml"
    $line answer_is_right 1 nothing explain --settings "$examples/press_fails.faults"
    $line answer_is_right 1 nothing explain --faults "$examples/press_fails.operator"
    $line answer_is_right 1 nothing explain --operator "$examples/press_fails.operator"
    $line measures_are_right 1 nothing measure --times "$times" "$whole" "$examples/refused.journal"
    $line answer_is_right 1 nothing measure --csv "$whole"
    $line answer_is_right 1 nothing measure --svg "$whole"
    $line answer_is_right 1 nothing events --csv --times "$times" "$whole"
    $line answer_is_right 1 nothing events --trace "$whole"
    $line answer_is_right 1 nothing events --vcd "$whole"
    $line answer_is_right 1 nothing events "$examples/refused.journal"
    $line answer_is_right 1 nothing check "$examples/cell.toml"
    $line answer_is_right 1 nothing check "$examples/press_fails.faults"
    $line answer_is_right 1 nothing check "$shared/none.toml"
}

# The same of the commands that run the cell, sweep it or look at every order of events.
run_lines() {
    local line=$1 times=$examples/measures/times.toml none=$examples/no_faults.faults
    local short=("$shared/short.toml" "$shared/short.faults" "$shared/short.operator")
    local run=("$examples/press_fails.toml" "$examples/press_fails.faults" "$examples/press_fails.operator")
    $line answer_is_right 1 nothing sim "${short[@]}"
    $line answer_is_right 1 nothing sim --journal "${short[@]}"
    $line answer_is_right 1 nothing sim --follow "$shared/short.journal" "${short[@]}"
    $line answer_is_right 1 nothing sim --from "$shared/short.journal" "${short[@]}"
    $line answer_is_right 1 nothing sim --measures "${short[@]}"
    $line answer_is_right 1 nothing sim --measures --journal --times "$times" "${short[@]}"
    $line ending_is_right 1 nothing sim --explain "${run[0]}" "$examples/arm_fails.faults" "${run[2]}"
    $line answer_is_right 1 nothing run "${run[@]}"
    $line answer_is_right 1 nothing run --times "$times" "${run[@]}"
    $line least_is_right 1 nothing run --measures "${run[@]}"
    $line ending_is_right 1 nothing run --explain "${run[0]}" "$shared/unreached.faults" "${run[2]}"
    $line journal_is_right 1 nothing run --journal "$shared/short.toml" "$none" "$none"
    $line driving_is_right 1 method drive "${short[@]}"
    $line driving_is_right 1 method drive --journal --explain --times "$times" "${short[@]}"
    $line driving_is_right 1 method drive --from "$shared/short.journal" "${short[@]}"
    $line driving_is_right 1 method drive --raw --explain "${short[@]}"
    $line controlling_is_right 1 cell control --explain --wait "${short[0]}" "${short[2]}"
    $line controlling_is_right 1 nothing control --journal "$shared/kept.journal" --resume --sync "${short[0]}" "${short[2]}"
    $line answer_is_right 1 nothing sweep --kinds no_motion --motions 1 "${short[0]}" "${short[2]}"
    # (some 14,000 allocations)
    $line answer_is_right 7 nothing sweep --csv --service --kinds lose_plate --motions 1 "${short[0]}" "${short[2]}"
    $line answer_is_right 1 nothing sweep --pairs --part 2/12 --threads 2 --kinds no_motion --motions 1 "${short[0]}" "${short[2]}"
    $line answer_is_right 1 nothing sweep --random 3 --seed 7 --faults 2 --kinds no_motion --motions 1 "${short[0]}" "${short[2]}"
    $line answer_is_right 1 nothing sweep --svg --kinds no_motion --motions 1 "${short[0]}" "${short[2]}"
    $line answer_is_right 1 nothing explore 0
    # (some 7,000 allocations)
    $line answer_is_right 101 nothing explore --fail robot --journal 1
    $line answer_is_right 11 nothing explore --fail robot --repair --limit 50 1
    $line answer_is_right 11 nothing explore --threads 2 --limit 50 1
}

# The same of all commands, and of the help of each, which the table of commands gives.
program_lines() {
    local line=$1 command
    $line answer_is_right 1 nothing --help
    $line answer_is_right 1 nothing --version
    $line answer_is_right 1 nothing brew
    for command in $(commands); do
        $line answer_is_right 1 nothing "$command" --help
        [ "$command" = help ] || $line answer_is_right 5 nothing help "$command"
    done
    text_lines "$line"
    run_lines "$line"
}

# Notes the words of a line.
note_line() {
    shift 3
    echo "$*" >> "$folder/words"
}

# Notes a line as a job, if it is of the command that is named, or none is, and of the part that is tried.
note_job() {
    [ -z "$only" ] || [ "$only" = "$4" ] || return 0
    seen=$((seen + 1))
    [ $((seen % parts)) = "$part" ] || return 0
    echo "$*" >> "$folder/jobs"
}

# The program's table has no command and no option of a command that is in no line. The table is the program's own, as its helps
# list it. (The last of two that a pipe joins reads all: one that stops at the first match would break the pipe for the other, and
# that is a failure here.)
check_lines() {
    local command option _name
    : > "$folder/words"
    program_lines note_line
    while read -r option _name; do
        if ! grep -q -x -e "$option" "$folder/words"; then
            wrong=$((wrong + 1))
            echo "$option: memory is refused to no command line of it"
        fi
    done < <(options)
    for command in $(commands); do
        while read -r option _name; do
            if ! grep "^$command " "$folder/words" | grep -c -e " $option\( \|\$\)" > /dev/null; then
                wrong=$((wrong + 1))
                echo "$command $option: memory is refused to no command line that has it"
            fi
        done < <([ "$command" = help ] || options "$command")
        if ! grep -v -e ' --help$' "$folder/words" | grep -c "^$command\( \|\$\)" > /dev/null; then
            wrong=$((wrong + 1))
            echo "$command: memory is refused to no command line of it"
        fi
    done
}

# Runs the lines side by side, one a processor.
refuse_program() {
    write_files
    check_lines
    : > "$folder/jobs"
    seen=0
    program_lines note_job
    if [ ! -s "$folder/jobs" ]; then
        wrong=$((wrong + 1))
        echo "$only: there is no command line of it"
    fi
    : > "$folder/lines.tally"
    REFUSE_LIBRARY=$library REFUSE_TALLY=$folder/lines.tally REFUSE_SHARED=$shared \
        xargs -r -P "$(nproc)" -L 1 "$here/refused.sh" line < "$folder/jobs" || true
    add_tally "$folder/jobs" "$folder/lines.tally"
}

# A number, its thousands parted by commas.
parted() {
    sed -E ':more; s/([0-9])([0-9]{3})($|,)/\1,\2\3/; t more' <<< "$1"
}

# Notes a row of the table: what was refused, how many runs that took since the last row, and how many were wrong.
note_row() {
    rows+=("| $1 | $(parted $((made - told_made))) | $(parted $((wrong - told_wrong))) |")
    told_made=$made told_wrong=$wrong
}

# The table has its two marks in the page, in their order.
find_table() {
    [ "$(grep -xF -e "$table_begins" -e "$table_ends" "$page")" = "$table_begins$newline$table_ends" ] && return 0
    echo "refused memory: docs/HOSTILE.md hasn't the two marks of the table" >&2
    return 1
}

# Writes the rows into the page, between the marks.
write_table() {
    {
        sed "\|^$table_begins\$|q" "$page"
        printf '%s\n' '' '| Refused | Runs | Wrong |' '|---|---:|---:|' "${rows[@]}" ''
        sed -n "\|^$table_ends\$|,\$p" "$page"
    } > "$folder/page"
    cat "$folder/page" > "$page"
}

case ${1:-both} in
    test)
        shift
        refuse_test "$@"
        exit 0
        ;;
    line)
        shift
        refuse_line "$@"
        exit 0
        ;;
    calls)
        refuse_calls
        refuse_threads
        ;;
    program)
        only=${2:-}
        refuse_program
        [ -n "$only" ] || refuse_threads
        ;;
    part)
        parts=8
        part=$((${2:-$(git -C "$here" rev-list --count HEAD 2> /dev/null || echo 0)} % parts))
        echo "refused memory: part $part of $parts"
        refuse_program
        ;;
    both | table)
        [ "${1:-both}" = both ] || find_table
        refuse_calls
        note_row 'memory: calls'
        refuse_program
        note_row 'memory: command lines'
        refuse_threads
        note_row 'a thread: `run`'
        [ "${1:-both}" = both ] || write_table
        ;;
    *)
        sed -n "s/^# Usage/usage/p" "$0" >&2
        exit 2
        ;;
esac
echo "refused memory: $made runs, $wrong wrong"
[ "$wrong" = 0 ]
