#!/bin/bash
# Gives the program hostile texts, words, and files and outputs that fail, and looks for the answer that is due, within so many
# megabytes and seconds, and never a signal. It prints a line for each with what it took, and fails where one is another.
# Usage: checks/texts.sh     Build the program first: ./cellctl --prove does. CELLCTL names another one.
set -u
here=$(cd "$(dirname "$0")/.." && pwd) || exit 1
cellctl=${CELLCTL:-$here/crates/cellctl/out/cellctl}
work=$(mktemp -d)
trap 'rm -rf "$work"' EXIT
cd "$work" || exit 1

# The names of the rows that are another.
wrong=()

# Notes that a row is another, and tells what is due.
# differs NAME WANTED
differs() {
    echo "  wanted: $2"
    wrong+=("$1")
}

# Runs the program on standard input, with a limit of seconds of a processor (and of 100 by the clock, since others may use the
# machine too), and tells what it printed, its status and its peak memory.
# measure NAME LINE STATUS MEGABYTES SECONDS WORDS...
measure() {
    name=$1 line=$2 status=$3 megabytes=$4 seconds=$5
    shift 5
    start=$(date +%s%N)
    (ulimit -S -t "$seconds" && exec timeout -k 1 100 /usr/bin/time -q -f %M -o peak "$cellctl" "$@" > said 2> told)
    got=$?
    took=$((($(date +%s%N) - start) / 1000000))
    peak=$(($(tail -n 1 peak) / 1024))
    first=$(head -n 1 said | cut -c 1-60)
    printf '%-44s %-28s status %s, %5d MB, %6d ms\n' "$name" "$first" "$got" "$peak" "$took"
    if [ "$first" != "$line" ] || [ "$got" != "$status" ] || [ "$peak" -gt "$megabytes" ]; then
        differs "$name" "$line, status $status, at most $megabytes MB; on standard error: $(head -n 1 told)"
    fi
}

# So many of one byte.
bytes() { head -c "$1" /dev/zero | tr '\0' "$2"; }
mega=1048576

audit_texts() {
    good='profile,1,,\n'
    measure 'a journal of 50 MB of commas' 'unreadable 0' 1 8 20 audit < <(bytes $((50 * mega)) ,)
    measure 'the same after the first record' 'unreadable 1' 1 8 20 audit < <(printf "$good"; bytes $((50 * mega)) ,)
    measure '100 MB of letters' 'unreadable 1' 1 8 20 audit < <(printf "$good"; bytes $((100 * mega)) a)
    measure '100 MB of zeros in a field' 'unreadable 1' 1 8 20 audit < <(printf "${good}admitted,"; bytes $((100 * mega)) 0)
    measure 'a line without an end' 'unreadable 1' 1 8 20 audit < <(printf "$good"; tr '\0' x < /dev/zero)
    measure 'bytes 0 without an end' 'unreadable 0' 1 8 20 audit < /dev/zero
    measure '50 MB of blank lines, and a journal' 'legal 0' 0 8 20 audit < <(bytes $((50 * mega)) '\n'; printf "$good")
    measure '10 MB of random bytes' 'unreadable 0' 1 8 20 audit < <(head -c $((10 * mega)) /dev/urandom)
    measure '10 MB of bytes 0' 'unreadable 0' 1 8 20 audit < <(bytes $((10 * mega)) '\0')
    measure '10 MB of quotes' 'unreadable 0' 1 32 20 audit < <(bytes $((10 * mega)) '"')
    measure 'a quoted field of 50 MB' 'unreadable 1' 1 200 20 audit < <(printf "$good\""; bytes $((50 * mega)) a)
    measure '5 MB of commas after a quoted field' 'unreadable 1' 1 160 20 audit < <(printf "$good\"a\""; bytes $((5 * mega)) ,)
    measure 'a migration of 100 MB of letters' '' 1 12 20 migrate < <(printf "$good"; bytes $((100 * mega)) a)
    measure 'a picture of 100 MB of letters' 'After 0 entries: the opening' 1 12 20 show < <(printf "$good"; bytes $((100 * mega)) a)
    measure 'an explanation of 50 MB of commas' 'line 2, entry 1: a record of more than 65536 bytes' 1 8 20 explain < <(printf "$good"; bytes $((50 * mega)) ,)
    measure 'an explanation of 60,000 commas' 'line 2, entry 1: 60001 fields, and not four' 1 8 20 explain < <(printf "$good"; bytes 60000 ,)
    measure 'an explanation of 10 MB of random bytes' 'line 1: the first record is profile,1,, or profile,2,,' 1 32 20 explain < <(printf x; head -c $((10 * mega)) /dev/urandom)
}

# Settings of a million bytes, and longer ones.
settings_texts() {
    head -c 1000000 /dev/urandom > random
    bytes 1000000 '"' > quotes
    bytes 1000000 '\0' > zeros
    { printf 'plates = '; bytes 1000000 1; } > digits
    { printf 'plates = "'; bytes 1000000 a; printf '"\n'; } > string
    { printf 'plates = '; bytes 1000000 '['; } > arrays
    { printf 'plates = '; bytes 500000 '['; bytes 500000 ']'; } > closed
    { bytes 1000000 '['; } > headers
    { printf 'plates = '; awk 'BEGIN { for (i = 0; i < 300000; i++) printf "{a=" }'; } > tables
    awk 'BEGIN { printf "a"; for (i = 0; i < 300000; i++) printf ".a"; print " = 1" }' > dotted
    awk 'BEGIN { for (i = 0; i < 80000; i++) print "key" i " = 1" }' > keys
    awk 'BEGIN { print "plates = 1"; for (i = 0; i < 60000; i++) print "[watch.w" i "]" }' > many
    awk 'BEGIN { for (i = 0; i < 6000; i++) { printf "k" i; for (j = 0; j < 79; j++) printf ".a"; print " = 1" } }' > parts
    { printf 'plates = 1\n#'; bytes $((mega - 12)) a; } > longest
    { cat longest; printf '\n'; } > longer
    measure 'settings of 1 MB of random bytes' 'settings NotToml' 1 16 20 check random
    measure '1 MB of quotes' 'settings NotToml' 1 16 20 check quotes
    measure '1 MB of bytes 0' 'settings NotToml' 1 16 20 check zeros
    measure 'a number of 1 MB' 'settings NotToml' 1 16 20 check digits
    measure 'a string of 1 MB' 'settings NotNumber plates' 1 16 20 check string
    measure 'arrays 1,000,000 deep' 'settings NotToml' 1 16 20 check arrays
    measure 'arrays 500,000 deep, closed' 'settings NotToml' 1 16 20 check closed
    measure 'a header of 1,000,000 brackets' 'settings NotToml' 1 16 20 check headers
    measure 'inline tables 300,000 deep' 'settings NotToml' 1 16 20 check tables
    measure 'a dotted key of 300,000 parts' 'settings NotToml' 1 16 20 check dotted
    measure '80,000 keys' 'settings UnknownKey key0' 1 64 20 check keys
    measure '60,000 tables' 'settings UnknownKey watch.w0' 1 64 20 check many
    measure '6,000 keys of 80 parts' 'settings UnknownKey k0' 1 600 20 check parts
    measure 'the longest settings' 'settings ok' 0 16 20 check longest
    measure 'settings with one byte more' 'settings TooLong' 1 16 20 check longer
    measure 'the same, explained' 'settings TooLong' 1 16 20 explain --settings longer
}

script_texts() {
    printf 'plates = 1\n' > good
    : > none
    head -c $((10 * mega)) /dev/urandom > random
    bytes $((10 * mega)) '"' > quotes
    bytes $((10 * mega)) '\0' > zeros
    bytes $((50 * mega)) , > commas
    bytes $((100 * mega)) a > letters
    bytes $((50 * mega)) '\n' > blank
    for script in random quotes zeros commas letters; do
        measure "faults of $script" 'faults unreadable 1' 1 16 20 sim good $script none
        measure "operator's lines of $script" 'operator unreadable 1' 1 16 20 sim good none $script
    done
    awk 'BEGIN { for (i = 0; i < 1000; i++) print "always,,stop,press1"; printf ",,,,,,,," }' > long
    measure 'a line too many, unfit' 'operator too long' 1 8 20 sim good none long
    measure 'scripts of 50 MB of blank lines' 'finished' 0 200 20 run good blank blank
}

# Texts without an end, and many blank lines, each of which is answered in little memory; where a text is kept, blank lines are
# kept as far as one may be long.
endless_texts() {
    printf 'profile,1,,\n' > first
    quoted() { yes '"a' | tr -d '\n'; }
    measure 'an explanation of yes' 'line 1: the first record is profile,1,, or profile,2,,' 1 8 1 explain < <(yes)
    measure 'of yes, behind the first record' 'line 2, entry 1: one field, and not four' 1 8 1 explain < <(cat first; yes)
    measure 'of an entry that is refused again and again' 'line 2, entry 1: repaired,feed,,: MachineHealthy feed: the f' 1 8 1 explain < <(cat first; yes repaired,feed,,)
    measure 'of bytes 0' 'line 1: the first record is profile,1,, or profile,2,,' 1 8 1 explain < /dev/zero
    measure 'of bytes 0, behind the first record' 'line 2, entry 1: a record of more than 65536 bytes' 1 8 1 explain < <(cat first; cat /dev/zero)
    measure 'of commas' 'line 2, entry 1: a record of more than 65536 bytes' 1 8 1 explain < <(cat first; tr '\0' , < /dev/zero)
    measure 'of a legal journal' 'line 1000002, entry 1000001: claimed,robot,z3,: JournalFull:' 1 64 5 explain < <(cat first; yes $'claimed,robot,z3,\nyielded,robot,z3,')
    measure 'an audit of a named file of bytes 0' 'unreadable 0' 1 8 1 audit /dev/zero
    measure 'a migration of it' '' 1 8 1 migrate /dev/zero
    measure 'an explanation of it' 'line 1: the first record is profile,1,, or profile,2,,' 1 8 1 explain /dev/zero
    measure 'an audit of a named file of yes' 'unreadable 0' 1 8 1 audit <(yes)
    measure 'an audit of a named journal without an end' 'refused 1000001 JournalFull' 1 8 5 audit <(cat first; yes $'claimed,robot,z3,\nyielded,robot,z3,')
    measure 'an audit of a named file of blank lines' 'legal 0' 0 8 20 audit <(bytes $((50 * mega)) '\n'; cat first)
    measure 'a migration of it' 'profile,2,,' 0 8 20 migrate <(bytes $((50 * mega)) '\n'; cat first)
    measure 'a picture of it' 'After 0 entries: the opening' 0 8 20 show --file <(bytes $((50 * mega)) '\n'; cat first)
    measure 'a page of it' '<!DOCTYPE html>' 0 8 20 show --html --file <(bytes $((50 * mega)) '\n'; cat first)
    measure 'a page beside it' '<!DOCTYPE html>' 0 8 20 show --html --beside <(bytes $((50 * mega)) '\n'; cat first) --file first
    measure 'a picture in which it plays' '<svg xmlns="http://www.w3.org/2000/svg" viewBox="0 0 800 480' 0 8 20 show --svg --animate <(bytes $((50 * mega)) '\n'; cat first)
    measure 'a picture in which 20,000 entries play' '<svg xmlns="http://www.w3.org/2000/svg" viewBox="0 0 800 480' 0 16 20 show --svg --animate <(cat first; yes $'claimed,robot,z3,\nyielded,robot,z3,' | head -n 20000)
    measure 'a page of a legal journal without an end' '<!DOCTYPE html>' 1 16 20 show --html --file <(cat first; yes $'claimed,robot,z3,\nyielded,robot,z3,')
    measure 'a page of its last entries' '<!DOCTYPE html>' 1 16 20 show --html --from 980000 --file <(cat first; yes $'claimed,robot,z3,\nyielded,robot,z3,')
    measure 'a page with the times of its last entries' '<!DOCTYPE html>' 1 64 20 show --html --from 999000 --times none --file <(cat first; yes $'claimed,robot,z3,\nyielded,robot,z3,')
    measure 'a run that follows it' 'followed' 0 12 20 sim --follow <(bytes $((50 * mega)) '\n'; cat first) good none none
    measure 'a run that goes on from it' 'finished' 0 12 20 sim --from <(bytes $((50 * mega)) '\n'; cat first) good none none
    measure 'blank lines without an end, explained' '' 3 300 20 explain <(yes '')
    measure 'explained on standard input' '' 3 300 20 explain < <(yes '')
    measure 'as a script that is explained' '' 3 300 20 explain --operator <(yes '')
    measure 'as a script that is run' '' 3 300 20 sim good none <(yes '')
    measure 'measures of blank lines before a journal' 'journal entries                   0' 0 16 20 measure <(bytes $((50 * mega)) '\n'; cat first)
    measure 'measures of a named file of bytes 0' 'unreadable 0' 1 8 1 measure /dev/zero
    measure 'measures of a journal without an end' 'refused 1000001 JournalFull' 1 16 10 measure <(cat first; yes $'claimed,robot,z3,\nyielded,robot,z3,')
    measure 'measures by times of bytes 0' 'times TooLong' 1 16 1 measure --times /dev/zero first
    measure 'events of blank lines before a journal' 'entry,begin,end,actor,kind,axis,pose,zone,plate,station,caus' 0 8 20 events <(bytes $((50 * mega)) '\n'; cat first)
    measure 'events of a named file of bytes 0' 'unreadable 0' 1 8 1 events /dev/zero
    measure 'events of a journal without an end' 'refused 1000001 JournalFull' 1 16 10 events <(cat first; yes $'claimed,robot,z3,\nyielded,robot,z3,')
    measure 'events by times of bytes 0' 'times TooLong' 1 16 1 events --times /dev/zero first
    for command in sim run; do
        measure "$command, settings of bytes 0" 'settings TooLong' 1 16 1 $command /dev/zero none none
        measure "$command, settings of yes" 'settings TooLong' 1 16 1 $command <(yes) none none
        measure "$command, faults of bytes 0" 'faults unreadable 1' 1 16 1 $command good /dev/zero none
        measure "$command, faults of yes" 'faults unreadable 1' 1 16 1 $command good <(yes) none
        measure "$command, faults of a quoted field" 'faults unreadable 1' 1 16 1 $command good <(quoted) none
        measure "$command, faults that are good" 'faults unreadable 2' 1 16 1 $command good <(yes press_two,1,slow,3) none
        measure "$command, operator's lines of bytes 0" 'operator unreadable 1' 1 16 1 $command good none /dev/zero
        measure "$command, operator's lines of yes" 'operator unreadable 1' 1 16 1 $command good none <(yes)
        measure "$command, operator's lines of a quoted field" 'operator unreadable 1' 1 16 1 $command good none <(quoted)
        measure "$command, operator's lines that are good" 'operator too long' 1 16 1 $command good none <(yes always,,expect,1)
    done
    measure 'check of bytes 0' 'settings TooLong' 1 16 1 check /dev/zero
    measure 'check of yes' 'settings TooLong' 1 16 1 check <(yes)
    measure 'an explanation of settings of bytes 0' 'settings TooLong' 1 16 1 explain --settings /dev/zero
    measure 'of settings of yes' 'settings TooLong' 1 16 1 explain --settings <(yes)
    for script in faults operator; do
        measure "of the script $script of bytes 0" 'line 1, record 1: a record of more than 65536 bytes' 1 16 1 explain --$script /dev/zero
        measure "of the script $script of yes" 'line 1, record 1: one field, and not four' 1 16 1 explain --$script <(yes)
        measure "of the script $script of a quoted field" 'line 1, record 1: a record of more than 65536 bytes' 1 16 1 explain --$script <(quoted)
    done
    measure 'of good lines of the operator' 'line 1001: more than 1000 lines' 1 16 1 explain --operator <(yes always,,expect,1)
}

# The program by a path that isn't UTF-8, and a word that isn't.
odd_names() {
    odd=$(printf 'odd\377')
    ln -s "$cellctl" "$odd"
    cellctl=./$odd measure 'a path with a byte FF, by which it is called' 'settings ok' 0 8 20 check good
    measure 'a word with a byte FF' '' 2 8 20 check "$odd"
}

# Each command with a stack of 512 KB.
small_stack() {
    printf 'profile,1,,\n' > journal
    for words in 'audit' 'migrate' 'show' 'show --svg' 'show --svg --animate journal' 'show --html' 'explain' 'explain --settings good' 'measure journal' 'measure --svg journal' \
        'events journal' 'events --trace journal' 'events --vcd journal' 'check good' 'sim --explain good none none' 'run good none none'; do
        # The words of a command are parted at blanks.
        # shellcheck disable=SC2086
        (ulimit -S -s 512 && exec "$cellctl" $words < journal > said 2> told)
        got=$?
        printf '%-60s status %s\n' "cellctl $words, a stack of 512 KB" "$got"
        [ "$got" = 0 ] || differs "cellctl $words, a stack of 512 KB" 'status 0'
    done
}

# Looks for a status, and for the lines on standard error that are due.
# ended NAME STATUS WANTED LINES
ended() {
    printf '%-60s status %s, %s\n' "$1" "$2" "$(tail -n 1 told | cut -c 1-100)"
    if [ "$2" != "$3" ] || [ "$(cat told)" != "$4" ]; then
        differs "$1" "status $3, $4"
    fi
}

# Looks for status 3, the words `read fault` and the reason, where standard output can't be written.
# unwritten NAME STATUS REASON
unwritten() {
    ended "$1" "$2" 3 $'read fault\ncellctl: standard output: '"$3"
}

# Each command with standard output closed, full, and a pipe that nobody reads.
outputs_that_fail() {
    printf 'profile,1,,\n' > journal
    for words in 'audit' 'migrate' 'show' 'show --svg' 'show --html' 'explain' 'explain --settings good' '--help' '--version' 'check good' \
        'audit journal' 'migrate journal' 'show --file journal' 'show --svg --animate journal' 'explain journal' 'measure journal' 'measure --csv journal' 'measure --svg journal' 'events journal' 'events --trace journal' \
        'events --vcd journal' 'sim good none none' 'sim --explain good none none' \
        'sim --journal good none none' 'sim --measures good none none' 'run good none none' 'run --journal good none none' 'run --measures good none none' \
        'drive good none none' 'drive --raw good none none' 'explore 1' 'explore --journal 1'; do
        # The words of a command are parted at blanks.
        # shellcheck disable=SC2086
        {
            "$cellctl" $words < journal 2> told >&-
            unwritten "cellctl $words, output closed" $? 'not open for writing'
            "$cellctl" $words < journal 2> told > /dev/full
            unwritten "cellctl $words, output full" $? 'no space left'
            { sleep 1; "$cellctl" $words < journal 2> told; echo $? > status; } | true
            while [ ! -s status ]; do sleep 0.1; done
            unwritten "cellctl $words, a pipe that ended" "$(cat status)" 'nobody reads it any more'
            : > status
        }
    done
}

# Files that can't be read, each named to a command, and the reason that is due. Nothing comes out.
files_that_fail() {
    : > none
    printf 'plates = 1\n' > good
    mkdir folder
    ln -s circle circle
    long=$(printf 'n%.0s' {1..300})
    escape=$'\e[31m\xc2\x9b'
    for words in 'audit' 'migrate' 'show --file' 'show 3 -f' 'show --html --file' 'show --svg --animate' 'explain' 'explain --settings' 'explain --faults' \
        'explain --operator' 'measure' 'measure none' 'measure none --times' 'events' 'events none --times' 'check' 'sim good none' 'run good none'; do
        while read -r file reason; do
            # The words of a command are parted at blanks.
            # shellcheck disable=SC2086
            "$cellctl" $words "$file" > said 2> told < /dev/null
            got=$?
            ended "cellctl $words ${file:0:20}" $got 3 $'read fault\ncellctl: '"$file: $reason"
            [ ! -s said ] || differs "cellctl $words ${file:0:20}" 'nothing on standard output'
        done << END
missing no such file
folder is a folder
good/missing its path goes through a file
circle its links go in a circle
$long its name is too long
END
    done
    "$cellctl" audit "$escape" 2> told < /dev/null
    ended 'a file whose name is an escape sequence' $? 3 $'read fault\ncellctl: \\u001B[31m\\u009B: no such file'
    for words in 'audit' 'migrate' 'show' 'explain'; do
        "$cellctl" $words > said 2> told < folder
        ended "cellctl $words, input is a folder" $? 3 $'read fault\ncellctl: standard input: is a folder'
        "$cellctl" $words > said 2> told <&-
        ended "cellctl $words, input closed" $? 3 $'read fault\ncellctl: standard input: not open for reading'
        "$cellctl" $words > said 2> told 0> written
        ended "cellctl $words, input open for writing" $? 3 $'read fault\ncellctl: standard input: not open for reading'
    done
    "$cellctl" audit missing > said 2>&-
    [ $? = 3 ] || differs 'a missing file, errors closed' 'status 3'
}

# A file that is named gives what standard input gives.
named_files() {
    printf 'profile,1,,\nlamp,feed,green,\nadmitted,1,,\n' > legal
    printf 'profile,1,,\nlamp,feed,green,\nlamp,feed,green,\n' > refused
    for file in legal refused none; do
        for words in 'audit' 'migrate' 'show' 'show 1' 'show --svg' 'show --html' 'show --unicode 9' 'show 4294967296' 'explain'; do
            # shellcheck disable=SC2086
            "$cellctl" $words < $file > said 2> told
            got=$?
            case $words in show*) named=--file ;; *) named= ;; esac
            # shellcheck disable=SC2086
            "$cellctl" $words $named $file > said2 2> told2 < folder
            ended "cellctl $words $named $file" $? $got "$(cat told2)"
            cmp -s said said2 && cmp -s told told2 || differs "cellctl $words $named $file" 'what standard input gives'
        done
    done
    bytes $((50 * mega)) , > commas
    { printf 'profile,1,,\n'; bytes $((100 * mega)) a; } > long_line
    measure 'a named journal of 50 MB of commas' 'unreadable 0' 1 8 20 audit commas
    measure 'a named journal with 100 MB of letters' 'unreadable 1' 1 8 20 audit long_line
}

# Words that are printed back have no control characters.
words_back() {
    "$cellctl" show $'\e[31mc' 2> told < /dev/null
    ended 'an ENTRY with an escape sequence' $? 2 "error: ENTRY is a whole number, and not '\\u001B[31mc'"
    "$cellctl" show 4294967296 2> told < legal
    ended 'an ENTRY of 2 ^ 32' $? 2 'error: NoSuchEntry: the journal has 2 entries'
    "$cellctl" show --html 99999999999999999999999999999999999999999999999999 2> told < legal
    ended 'an ENTRY of 50 digits' $? 2 'error: NoSuchEntry: the journal has 2 entries'
    "$cellctl" show 99999999999999999999999999999999999999999999999999x 2> told < legal
    ended 'an ENTRY of 50 digits and a letter' $? 2 \
        "error: ENTRY is a whole number, and not '99999999999999999999999999999999999999999999999999x'"
    for words in $'brew\e[31m' $'audit --\e[31m' $'audit one \e[31m' $'show -\e' $'show 1 \xc2\x9b31m' \
        $'explain --settings a --settings \e[31m\x7f\r'; do
        # shellcheck disable=SC2086
        "$cellctl" $words > said 2> told < /dev/null
        got=$?
        printf '%-60s status %s\n' "$(printf 'cellctl %q' "$words")" "$got"
        if [ "$got" != 2 ] || LC_ALL=C grep -q $'[\x01-\x09\x0b-\x1f\x7f]\|\xc2[\x80-\x9f]' told; then
            differs "$(printf 'cellctl %q' "$words")" 'status 2, and no control characters but line feeds'
        fi
    done
}

# Options that don't go with a journal that plays. Nothing is printed.
lone_options() {
    for words in 'show' 'show 1' 'show --html' 'show --svg --html' 'show --svg --unicode' 'show --svg --times none' 'show --svg -f legal' \
        'show --svg --beside legal' 'show --svg --from 1' 'show --svg --count 1'; do
        # The words of a command are parted at blanks.
        # shellcheck disable=SC2086
        "$cellctl" $words --animate legal > said 2> told < /dev/null
        ended "cellctl $words --animate legal" $? 2 'error: --animate goes with --svg alone'
        [ ! -s said ] || differs "cellctl $words --animate legal" 'nothing on standard output'
    done
}

# Flags of events and of measure that ask for several forms. Nothing is printed.
several_forms() {
    for words in '--csv --trace' '--csv --vcd' '--trace --vcd' '--csv --trace --vcd --times none'; do
        # The words of a command are parted at blanks.
        # shellcheck disable=SC2086
        "$cellctl" events $words legal > said 2> told < /dev/null
        ended "cellctl events $words" $? 2 'error: of --csv, --trace and --vcd one alone can be given'
        [ ! -s said ] || differs "cellctl events $words" 'nothing on standard output'
    done
    "$cellctl" measure --csv --svg --times none legal > said 2> told < /dev/null
    ended 'cellctl measure --csv --svg' $? 2 'error: of --csv and --svg one alone can be given'
    [ ! -s said ] || differs 'cellctl measure --csv --svg' 'nothing on standard output'
}

# Words for the states of a page that ask for none, and why. Nothing is printed.
wrong_windows() {
    local goes='error: --from and --count go with --html'
    local from='error: --from is a whole number'
    local count='error: --count is a whole number from 0 to 20000'
    local past='error: NoSuchEntry: the journal has 2 entries'
    while IFS='|' read -r words why; do
        # The words of a command are parted at blanks.
        # shellcheck disable=SC2086
        "$cellctl" show $words > said 2> told < legal
        ended "cellctl show $words" $? 2 "$why"
        [ ! -s said ] || differs "cellctl show $words" 'nothing on standard output'
    done << END
--from 1|$goes
--count 1 1|$goes
--svg --from 1 --count 1|$goes
--svg --times none --count 1|$goes
--unicode --from 1|$goes
--html --from one|$from
--html --from=-1|$from
--html --count one|$count
--html --count 20001|$count
--html --count 4294967296|$count
--html --from 3|$past
--html --from 3 --count 0|$past
--html --from 4294967295|$past
--html --from 99999999999999999999999999999999999999999999999999|$past
--html --from 1 3|$past
--html --beside legal --from 3|$past
END
    for words in '--from 2' '--from 2 --count 0' '--from 0 --count 20000' '--count 0' '--from 1 --count 1' '--from +2 --beside none'; do
        # shellcheck disable=SC2086
        "$cellctl" show --html $words > said 2> told < legal
        ended "cellctl show --html $words" $? 0 ''
        [ "$(head -n 1 said)" = '<!DOCTYPE html>' ] || differs "cellctl show --html $words" 'a page'
    done
    # A journal that is too long for a picture of times or motions: the error says how a part is shown.
    { printf 'profile,1,,\n'; yes $'claimed,robot,z3,\nyielded,robot,z3,' | head -n 20001; } > long
    for words in '--times none --file long' '--animate long'; do
        # shellcheck disable=SC2086
        "$cellctl" show --svg $words > said 2> told < /dev/null
        ended "cellctl show --svg $words" $? 2 'error: TooManyEntries: such a picture shows at most 20000 entries; of a longer journal --html --from N --count M shows a part'
        [ ! -s said ] || differs "cellctl show --svg $words" 'nothing on standard output'
    done
    "$cellctl" show --html --from 20001 --file long > said 2> told < /dev/null
    ended 'cellctl show --html --from 20001 of a long journal' $? 0 ''
    grep -q 'the states after 20001 to 20001 entries of the journal, which has 20001\.' said || differs 'the page of its last entry' 'a line that tells it'
}

# Words of explore that ask nothing, and why. Nothing is printed.
wrong_questions() {
    local numbers='error: STATES is a whole number from 1 to 4294967295'
    local threads='error: --threads is a whole number from 1 to 64'
    local machines='error: MACHINE is feed, table, robot, press1, press2 or deposit, and not'
    while IFS='|' read -r words why; do
        # The words of a command are parted at blanks.
        # shellcheck disable=SC2086
        "$cellctl" explore $words > said 2> told < /dev/null
        ended "cellctl explore $words" $? 2 "$why"
        [ ! -s said ] || differs "cellctl explore $words" 'nothing on standard output'
    done << END
16|error: PLATES is a whole number from 0 to 15
-- -1|error: PLATES is a whole number from 0 to 15
4294967296|error: PLATES is a whole number from 0 to 15
one|error: PLATES is a whole number from 0 to 15
--limit 0 1|$numbers
--limit 4294967296 1|$numbers
--limit 1e6 1|$numbers
--threads 0 1|$threads
--threads 65 1|$threads
--threads=-1 1|$threads
--fail brew 1|$machines 'brew'
--fail robot --fail Robot --fail brew 1|$machines 'Robot'
END
}

# Words of sweep that don't go together or ask for nothing, and why. Nothing is printed.
wrong_sweeps() {
    local threads='error: --threads is a whole number from 1 to 64'
    local motions='error: N is a whole number from 1 to 1000000'
    local random='error: --random is a whole number from 1 to 1000000'
    local picture='error: --svg goes with neither --csv, --pairs, --random nor --part'
    local part='error: --part is K/N, two whole numbers of which K is 1 to N and N 1 to 1000000'
    while IFS='|' read -r words why; do
        # The words of a command are parted at blanks.
        # shellcheck disable=SC2086
        "$cellctl" sweep $words good none > said 2> told < /dev/null
        ended "cellctl sweep $words" $? 2 "$why"
        [ ! -s said ] || differs "cellctl sweep $words" 'nothing on standard output'
    done << END
--kinds both,brew|error: word 2 of LIST is no kind of fault
--motions 0|$motions
--motions +1|$motions
--motions 1000001|$motions
--pairs --random 1|error: of --pairs and --random one alone can be given
--seed 1|error: --seed goes with --random
--pairs --seed 1|error: --seed goes with --random
--faults 1|error: --faults goes with --random
--random 0|$random
--random 1000001|$random
--random one|$random
--random 1 --faults 0|error: --faults is a whole number from 1 to 100
--random 1 --faults 101|error: --faults is a whole number from 1 to 100
--random 1 --seed one|error: --seed is a whole number from 0 to 4294967295
--random 1 --seed 4294967296|error: --seed is a whole number from 0 to 4294967295
--part 1|$part
--part /|$part
--part 1/0|$part
--part 0/1|$part
--part 3/2|$part
--part 1/2/2|$part
--part 1/1000001|$part
--threads 0|$threads
--threads 65|$threads
--svg --csv|$picture
--svg --pairs|$picture
--svg --random 1|$picture
--svg --part 1/1|$picture
END
}

audit_texts
settings_texts
script_texts
endless_texts
odd_names
small_stack
outputs_that_fail
files_that_fail
named_files
words_back
lone_options
several_forms
wrong_windows
wrong_questions
wrong_sweeps
if [ ${#wrong[@]} = 0 ]; then
    echo 'hostile texts and outputs: all as due'
else
    echo "hostile texts and outputs: ${#wrong[@]} are another: $(printf '%s; ' "${wrong[@]}")"
    exit 1
fi
