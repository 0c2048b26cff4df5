#!/bin/sh
# Prints the digest of all that the program is proved and built from: the kit's line, and of cellctl and each crate that it
# stands on the line of crates.txt and the files in src, specs and proofs.
# Usage: checks/sources.sh
cd "$(dirname "$0")/.." || exit 1
lines=$(awk '
    { name = $1; sub(":", "", name); line[name] = $0 }
    function need(name,    words, count, i) {
        if (!(name in line) || name in seen) return
        seen[name] = 1
        count = split(line[name], words, " ")
        for (i = 2; i <= count; i++) need(words[i])
        print line[name]
    }
    END { need("cellctl") }' crates.txt | LC_ALL=C sort)
# (the names of crates and files have no blanks)
folders=$(echo "$lines" | sed 's|\([^:]*\):.*|crates/\1/src crates/\1/specs crates/\1/proofs|')
{
    cat KIT
    echo "$lines"
    find $folders -type f 2>/dev/null | LC_ALL=C sort | xargs sha256sum
} | sha256sum | cut -d ' ' -f 1
