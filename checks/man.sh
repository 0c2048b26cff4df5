#!/bin/bash
# Prints the manual page of cellctl, made of the program's own help texts. docs/cellctl.1 is what it prints.
# Usage: checks/man.sh > docs/cellctl.1     Build the program first: ./cellctl --prove does. CELLCTL names another one.
set -euo pipefail
source "$(dirname "$0")/helps.sh"

# The lines of a help text that say how the program is called.
usage_of() {
    awk '/^Usage: / { on = 1; sub(/^Usage: /, "") } on && NF == 0 { exit } on { sub(/^ +/, ""); gsub(/-/, "\\-"); print ".B " $0; print ".br" }'
}

# Makes roff of a help text: its text as it stands, and a paragraph for each argument and option. The usage is left out.
roff_of() {
    awk '
        function plain(line) {
            gsub(/\\/, "\\e", line)
            gsub(/-/, "\\-", line)
            if (line ~ /^[.'"'"']/) line = "\\&" line
            return line
        }
        function fill(on) {
            if (on != filled) print (on ? ".fi" : ".nf")
            filled = on
        }
        BEGIN { filled = 1 }
        /^Usage: / { part = "usage"; sub(/^Usage: /, "") }
        /^(Arguments|Options|Commands):$/ { part = "items"; next }
        /^(Example|Exit status|Each command)/ && part != "" { part = "text" }
        $0 == "" { if (part == "items" || part == "usage") next }
        part == "usage" { next }
        part == "items" && match($0, /^ +/) && RLENGTH < 9 {
            fill(1)
            sub(/^ +/, "")
            name = $0
            about = ""
            if (match($0, /  +/)) { name = substr($0, 1, RSTART - 1); about = substr($0, RSTART + RLENGTH) }
            print ".TP"
            print ".B " plain(name)
            if (about != "") print plain(about)
            next
        }
        part == "items" { sub(/^ +/, ""); print plain($0); next }
        filled { print ".PP" }
        { fill(0); print plain($0) }
        END { fill(1) }'
}

version=$("$cellctl" --version)
cat << END
.\\" Made by checks/man.sh of the program's help texts.
.TH CELLCTL 1 "" "$version" "User Commands"
.SH NAME
cellctl \\- run a simulated production cell, and judge, draw and explain its journals
.SH SYNOPSIS
END
for command in $(commands | grep -vx help); do
    "$cellctl" "$command" --help | usage_of
done
echo '.SH DESCRIPTION'
"$cellctl" --help | roff_of
echo '.SH COMMANDS'
for command in $(commands | grep -vx help); do
    echo ".SS cellctl $command"
    "$cellctl" "$command" --help | roff_of
done
cat << 'END'
.SH SEE ALSO
The documents in the folder docs/ of the program's sources: JOURNAL.md, SETTINGS.md, SIMULATOR.md, SHOWING.md and CELL.md.
END
