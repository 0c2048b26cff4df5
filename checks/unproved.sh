#!/usr/bin/env bash
# Looks which words of `./cellctl --unproved` are taken for files: those that name one and stand where a file may, and no other. A
# stand-in for `rt` prints what it is given, so nothing is compiled.
# Usage: checks/unproved.sh
set -euo pipefail
here=$(cd "$(dirname "$0")/.." && pwd)
folder=$(mktemp -d)
trap 'rm -r "$folder"' EXIT
wrong=0
mkdir "$folder/bin" "$folder/work"
printf '%s\n' '#!/bin/sh' 'echo "$@"' > "$folder/bin/rt"
chmod +x "$folder/bin/rt"
# Files whose names are words of the command lines.
cd "$folder/work"
for name in audit show 30 no_motion feed times.toml journal settings; do
    : > "$name"
done

# What the stand-in is given for some words has to be this, with @ for the folder of the files.
row() {
    local due=$1 given
    shift
    given=$(PATH=$folder/bin:$PATH "$here/cellctl" --unproved "$@" 2> "$folder/errors" | sed "s|$(readlink -f .)|@|g")
    if [ "$given" != "$due" ]; then
        wrong=$((wrong + 1))
        printf '%s\n' "$*: the program is given" "  $given" "and due is" "  $due"
    fi
}

row "try -- audit" audit
row "try --data 2/journal=@/journal -- audit 2/journal" audit journal
row "try -- show 30" show 30
row "try --data 3/journal=@/journal -- show --file 3/journal 30" show --file journal 30
row "try --data 3/times.toml=@/times.toml -- show --times 3/times.toml" show --times times.toml
row "try --data 4/settings=@/settings -- sweep --kinds no_motion 4/settings /dev/null" sweep --kinds no_motion settings /dev/null
row "try --data 4/settings=@/settings -- sweep --motions 30 4/settings /dev/null" sweep --motions 30 settings /dev/null
row "try --data 8/settings=@/settings -- sweep --random 30 --faults 30 --part 30 8/settings /dev/null" \
    sweep --random 30 --faults 30 --part 30 settings /dev/null
row "try -- explore --fail feed --limit 30 30" explore --fail feed --limit 30 30
row "try -- help show" help show
row "try --data 3/times.toml=@/times.toml --data 4/settings=@/settings -- sim --times 3/times.toml 4/settings /dev/null /dev/null" \
    sim --times times.toml settings /dev/null /dev/null
echo "words of unproved runs: $wrong wrong"
[ "$wrong" = 0 ]
