#!/bin/bash
# Looks whether the documents are true where a script can tell: each command in a block of the kind `console` is run, and
# prints what stands there; each excerpt of code stands in its file; each link leads somewhere; each crate has its row in
# docs/CRATES.md, behind those that it stands on, and its README of at most 40 lines; README.md, docs/ and the crates' READMEs
# have no more words than is aimed at, and no sentence of the pages that checks/sentences.py names more than 30; the documents
# name the kit that KIT names; the table of docs/PROVED.md is what the sources make; the manual page and the completion are what
# the help texts make, and bash offers what the completion has.
# Usage: checks/docs.sh     Build the program first: ./cellctl --prove does. CELLCTL names another one.
set -u
here=$(cd "$(dirname "$0")/.." && pwd) || exit 1
cellctl=${CELLCTL:-$here/crates/cellctl/out/cellctl}
work=$(mktemp -d) || exit 1
trap 'rm -rf "$work"' EXIT
cd "$here" || exit 1
documents=$(ls README.md docs/*.md crates/*/README.md)
commands=0
failed=0

wrong() {
    echo "documents: $1"
    failed=1
}

# The blocks of a kind in a document, each in a file that is named after the line where it begins.
blocks() {
    rm -rf "$work/blocks"
    mkdir "$work/blocks"
    awk -v kind="$1" -v folder="$work/blocks" '
        /^```/ { if (on) on = 0; else { on = 1; file = folder "/" NR; wanted = ($0 == "```" kind); if (wanted) printf "" > file } next }
        on && wanted { print > file }' "$2"
    ls "$work/blocks" | sort -n
}

# Parts a block into its commands and, for each, what it has to print; and makes the script that runs them.
part_block() {
    rm -rf "$work/parts"
    mkdir "$work/parts"
    awk -v folder="$work/parts" '
        function open(number) { printf "" > (folder "/" number ".due") }
        /^\$ / {
            if (number) print "} > \"$parts/" number ".got\" 2>&1"
            number++
            open(number)
            print "{"
            print substr($0, 3)
            more = /\\$/
            next
        }
        more && /^> / { print substr($0, 3); more = /\\$/; next }
        number { print > (folder "/" number ".due") }
        END { if (number) print "} > \"$parts/" number ".got\" 2>&1" }' "$1" > "$work/script"
}

# Runs the commands of a block in a folder with the program, the examples and the documents.
run_block() {
    local document=$1 line=$2 due
    part_block "$work/blocks/$line"
    (cd "$work/top" && parts=$work/parts timeout 60 bash "$work/script" < /dev/null)
    for due in "$work/parts"/*.due; do
        commands=$((commands + 1))
        cmp -s "$due" "${due%.due}.got" && continue
        wrong "$document, the block at line $line prints another thing (< due, > printed):"
        diff "$due" "${due%.due}.got" | head -n 20
    done
}

run_commands() {
    local document line
    mkdir "$work/top"
    cp -r examples docs "$work/top"
    ln -s "$cellctl" "$work/top/cellctl"
    for document in $documents; do
        for line in $(blocks console "$document"); do
            run_block "$document" "$line"
        done
        grep -n '^    \./cellctl\|^    \$ ' "$document" > "$work/bare" &&
            wrong "$document has a command outside of a block: $(head -n 1 "$work/bare")"
    done
    [ "$commands" -gt 0 ] || wrong "no command was run"
}

# Commands that aren't run here: the gate itself, which calls this, and what takes minutes or a browser.
look_at_scripts() {
    local document line
    for document in $documents; do
        for line in $(blocks sh "$document"); do
            while read -r command rest; do
                [ "$command $rest" != "./cellctl --prove" ] || continue
                case $command in
                    .ci/run | checks/*.sh | bench/*.sh | rt | cd) ;;
                    *) wrong "$document, the block at line $line has a command that isn't run: $command $rest" ;;
                esac
                case $command in
                    .ci/run | checks/*.sh | bench/*.sh) [ -x "$command" ] || wrong "$document: there is no $command" ;;
                esac
            done < "$work/blocks/$line"
        done
    done
}

# An excerpt names its file in its first line, and stands in it line by line.
look_at_excerpts() {
    local document line file
    for document in $documents; do
        for line in $(blocks rust "$document"); do
            file=$(sed -n '1s,^// *,,p' "$work/blocks/$line")
            [ -f "$file" ] || { wrong "$document, line $line: no file is named"; continue; }
            sed 1d "$work/blocks/$line" > "$work/excerpt"
            awk 'NR == FNR { want[++n] = $0; next }
                { have[FNR] = $0 }
                END {
                    for (i = 1; i + n - 1 <= FNR; i++) {
                        for (j = 1; j <= n && have[i + j - 1] == want[j]; j++);
                        if (j > n) exit 0
                    }
                    exit 1
                }' "$work/excerpt" "$file" || wrong "$document, line $line: this doesn't stand in $file"
        done
    done
}

look_at_links() {
    local document target
    for document in $documents; do
        while read -r target; do
            [ -e "$(dirname "$document")/${target%%#*}" ] || wrong "$document links to $target, which isn't there"
        done < <(grep -o '](\([^)]*\))' "$document" | sed 's/^](//; s/)$//' | grep -v '^https\?://\|^#')
    done
}

# Each crate has a row in docs/CRATES.md and a README.
look_at_crates() {
    local crate heading rows
    for crate in $(sed -n 's/^\([a-z_]*\):.*/\1/p' crates.txt); do
        rows=$(grep -cF "|[\`$crate\`](../crates/$crate/README.md)|" docs/CRATES.md)
        [ "$rows" = 1 ] || wrong "docs/CRATES.md has $rows rows of $crate"
        [ -f "crates/$crate/README.md" ] || { wrong "there is no crates/$crate/README.md"; continue; }
        for heading in "# $crate" '## What it has' '## Only tested' '## Neither'; do
            grep -qxF "$heading" "crates/$crate/README.md" || wrong "crates/$crate/README.md has no heading '$heading'"
        done
        [ "$(wc -l < "crates/$crate/README.md")" -le 40 ] || wrong "crates/$crate/README.md has more than 40 lines"
    done
}

# In docs/CRATES.md each crate has its row behind those that it stands on.
look_at_layers() {
    local told
    told=$(awk '
        FNR == NR && match($0, /^\|\[`[a-z_]+`\]/) { place[substr($0, 4, RLENGTH - 5)] = FNR }
        FNR == NR { next }
        { sub(/:$/, "", $1) }
        place[$1] { for (i = 2; i <= NF; i++) if (place[$i] > place[$1]) print "docs/CRATES.md has " $1 " before " $i ", on which it stands" }
    ' docs/CRATES.md crates.txt)
    [ -z "$told" ] || wrong "$told"
}

# Documents that are read are short: some files together have so many words at most.
look_at_length() {
    local most=$1 what=$2 words
    shift 2
    words=$(cat "$@" | wc -w)
    [ "$words" -le "$most" ] || wrong "$what: $words words, and $most are the most"
}

look_at_kit() {
    local document
    for document in README.md docs/PROVED.md; do
        grep -qF "\`$(cat KIT)\`" "$document" || wrong "$document names another kit than KIT"
    done
}

# The table of how much one has to believe is made of the sources, and what is proved of each crate can be listed.
look_at_proved() {
    checks/proved.py > "$work/listed" 2>&1 || { wrong "checks/proved.py doesn't list what is proved:"; tail -n 1 "$work/listed"; }
    checks/proved.py check > "$work/proved" || { wrong "the table of docs/PROVED.md isn't what checks/proved.py makes:"; cat "$work/proved"; }
}

# Whether the completion offers a word after others, of which the last one begins as $last.
offers() {
    local word=$1
    shift
    bash -c 'source docs/cellctl.bash; COMP_WORDS=("$@" ""); COMP_WORDS[$#]=${last-}; COMP_CWORD=$#; _cellctl; printf "%s\n" "${COMPREPLY[@]}"' \
        completion "$@" | grep -qx -- "$word" || wrong "docs/cellctl.bash doesn't offer $word after: $*"
}

# The manual page and the completion are made anew, and bash is asked what it offers.
look_at_words() {
    CELLCTL=$cellctl checks/man.sh | cmp -s - docs/cellctl.1 || wrong "docs/cellctl.1 isn't what checks/man.sh prints"
    CELLCTL=$cellctl checks/completion.sh | cmp -s - docs/cellctl.bash || wrong "docs/cellctl.bash isn't what checks/completion.sh prints"
    last=ex offers explore cellctl
    last=- offers --svg cellctl show
    last=p offers press2 cellctl explore --fail
    last= offers sweep cellctl help
}

# The pages that are read first have short sentences.
look_at_sentences() {
    checks/sentences.py > "$work/sentences" || { wrong "there are long sentences:"; cat "$work/sentences"; }
}

run_commands
look_at_scripts
look_at_excerpts
look_at_links
look_at_crates
look_at_layers
look_at_length 600 README.md README.md
look_at_length 28000 docs/ docs/*.md
look_at_length 10000 "the crates' READMEs" crates/*/README.md
look_at_kit
look_at_proved
look_at_words
look_at_sentences
echo "documents: $commands commands run; $([ $failed = 0 ] && echo all as they stand || echo some are another)"
exit $failed
