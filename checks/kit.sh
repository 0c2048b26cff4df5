#!/usr/bin/env bash
# Looks what .ci/run and cellctl do where the command rt of Rattle's kit isn't in the path: where they need it, they say so in one
# line on standard error, with status 3, and do nothing else; and where the sources are those of the released program, cellctl
# runs that one. Usage: checks/kit.sh
set -u
here=$(cd "$(dirname "$0")/.." && pwd) || exit 1
work=$(mktemp -d) || exit 1
trap 'rm -rf "$work"' EXIT
tried=0
failed=0

wrong() {
    echo "kit: $1"
    failed=1
}

# The path without rt: in place of a folder that has it stands one with links to all else there.
path_without_rt() {
    local folder path= number=0 IFS=:
    for folder in $PATH; do
        if [ -e "$folder/rt" ]; then
            number=$((number + 1))
            mkdir "$work/bin$number"
            ln -s "$folder"/* "$work/bin$number"
            rm "$work/bin$number/rt"
            folder=$work/bin$number
        fi
        path=$path:$folder
    done
    echo "${path#:}"
}

# Runs a command without rt in a tree, and looks at its status, its lines and that it leaves the tree as it was. A command that
# goes on is ended, with all that it started.
# needs_kit TREE LINE COMMAND WORDS...
needs_kit() {
    local tree=$1 line=$2 status
    shift 2
    tried=$((tried + 1))
    find "$tree" -newer "$work/began" | sort > "$work/before"
    (cd "$tree" && PATH=$without timeout 10 "$@" > "$work/out" 2> "$work/err" < /dev/null)
    status=$?
    find "$tree" -newer "$work/began" | sort | cmp -s - "$work/before" || wrong "$* without rt changed files"
    [ "$status" = 3 ] || wrong "$* without rt: status $status in place of 3"
    [ ! -s "$work/out" ] || wrong "$* without rt prints: $(head -n 3 "$work/out")"
    echo "$line the command rt of Rattle's kit is needed, and it isn't in the path" | diff - "$work/err" ||
        wrong "$* without rt says another thing (< due, > said)"
}

# A tree of one crate without a released program, and one for whose sources there is a released program, which says its name.
mkdir -p "$work/bare/crates/cellctl/src" "$work/bare/checks"
cp -r "$here/.ci" "$here/cellctl" "$here/KIT" "$work/bare"
cp "$here/checks/sources.sh" "$work/bare/checks"
echo "cellctl:" > "$work/bare/crates.txt"
echo "fn main() {}" > "$work/bare/crates/cellctl/src/main.rt"
cp -r "$work/bare" "$work/released"
mkdir "$work/released/release"
printf '#!/bin/sh\necho released "$@"\n' > "$work/released/release/cellctl-x86_64-linux"
chmod 755 "$work/released/release/cellctl-x86_64-linux"
(cd "$work/released/release" && sha256sum cellctl-x86_64-linux > SHA256SUMS && ../checks/sources.sh > SOURCES)

without=$(path_without_rt)
PATH=$without command -v rt > /dev/null && wrong "there is still an rt in the path"
touch "$work/began"
for tree in bare released; do
    needs_kit "$work/$tree" "gate: to prove the crates" .ci/run
    needs_kit "$work/$tree" "cellctl: to prove and build the program" ./cellctl --prove
    needs_kit "$work/$tree" "cellctl: to prove and build the program" ./cellctl --prove audit KIT
    needs_kit "$work/$tree" "cellctl: to compile the program" ./cellctl --unproved audit KIT
done
needs_kit "$work/bare" "cellctl: no released program of these sources runs here, and to prove and build one" ./cellctl audit KIT
said=$(PATH=$without "$work/bare/cellctl" --which)
[[ $said == "none: "* ]] || wrong "cellctl --which without rt and without a program says: $said"
said=$(PATH=$without "$work/released/cellctl" audit KIT 2>&1)
if [ "$(uname -sm)" = "Linux x86_64" ] && [ "$said" != "released audit KIT" ]; then
    wrong "cellctl doesn't run the released program without rt: $said"
fi
echo "kit: $tried commands tried without rt; $([ $failed = 0 ] && echo all say what is needed || echo some do another thing)"
exit $failed
