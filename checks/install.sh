#!/bin/bash
# Installs the released program into a folder of its own, and looks whether it runs there and has its manual page and its completion,
# and whether nothing is left once it is uninstalled; the same with an archive of it, which has the same bytes when it is made again.
# Does nothing where make isn't there. Usage: checks/install.sh
set -uo pipefail
here=$(cd "$(dirname "$0")/.." && pwd) || exit 1
work=$(mktemp -d) || exit 1
trap 'rm -rf "$work"' EXIT
failed=0

wrong() {
    echo "install: $1"
    failed=1
}

# What is installed below a folder works.
works_below() {
    local below=$1 program=$1/bin/cellctl
    [ "$("$program" audit < "$here/examples/sample.journal" | head -n 1)" = 'legal 4' ] || wrong "the program doesn't run in $below"
    cmp -s "$program" "$here/release/cellctl-x86_64-linux" || wrong "$program isn't the released one"
    CELLCTL=$program "$here/checks/man.sh" | cmp -s - "$below/share/man/man1/cellctl.1" || wrong "$below has another manual page"
    bash -c 'source "$1" && complete -p cellctl' completion "$below/share/bash-completion/completions/cellctl" > /dev/null ||
        wrong "$below has no completion"
    [ "$(find "$below" -type f | wc -l)" = 3 ] || wrong "$below has other files than three"
}

if ! command -v make > /dev/null; then
    echo "install: make isn't there, so nothing is tried"
    exit 0
fi
make -s -C "$here" | grep '^make install' > /dev/null || wrong "make doesn't say what there is"
make -s -C "$here" install DESTDIR="$work/stage" PREFIX=/opt/cell 2> /dev/null || wrong "make install fails"
works_below "$work/stage/opt/cell"
make -s -C "$here" uninstall DESTDIR="$work/stage" PREFIX=/opt/cell || wrong "make uninstall fails"
[ -z "$(find "$work/stage" -type f)" ] || wrong "make uninstall leaves something"
for number in 1 2; do
    "$here/checks/archive.sh" "$work/archive$number" > "$work/sums$number" 2> /dev/null || wrong "no archive is made"
done
cmp -s "$work/sums1" "$work/sums2" || wrong "an archive of the same release has other bytes"
mkdir "$work/unpacked"
tar -xzf "$work"/archive1/*.tar.gz -C "$work/unpacked" --strip-components=1 || wrong "the archive can't be unpacked"
works_below "$work/unpacked"
echo "install: by make and by an archive; $([ $failed = 0 ] && echo all works || echo something is wrong)"
exit $failed
