#!/bin/sh
# Compares the released program with the one that was built here, by the gate or by ./cellctl: where the release was made of
# these sources with this kit, both have to have the same bytes. Where the sources have moved on, or another kit makes other
# bytes, it says so.
# Usage: checks/release.sh [make | archive [FOLDER]]     make: makes a release of the program that was built; archive: makes an
# archive of the released one (checks/archive.sh)
here=$(cd "$(dirname "$0")/.." && pwd) || exit 1
if [ "$1" = archive ]; then
    shift
    exec "$here/checks/archive.sh" "$@"
fi
built=$here/crates/cellctl/out/cellctl
name=cellctl-x86_64-linux
sources=$("$here/checks/sources.sh") || exit 1

if [ ! -x "$built" ]; then
    echo "release: no program was built"
    exit 1
fi
if [ "$1" = make ]; then
    if [ "$(rt version)" != "$(cat "$here/KIT")" ]; then
        echo "release: this kit is $(rt version), and KIT names $(cat "$here/KIT")"
        exit 1
    fi
    newer=$("$here/cellctl" --which)
    if [ "$newer" != "proved here: $built" ]; then
        echo "release: the program that was built is older than its sources"
        exit 1
    fi
    mkdir -p "$here/release" && cd "$here/release" || exit 1
    # (the program's text alone: what was built may have been made with other rights)
    cat "$built" >"$name" && chmod 755 "$name" && sha256sum "$name" >SHA256SUMS && echo "$sources" >SOURCES || exit 1
    echo "release: made of the program that was built: $(cat SHA256SUMS)"
elif [ "$sources" != "$(cat "$here/release/SOURCES" 2>/dev/null)" ]; then
    echo "release: the sources have moved on since it was made"
elif ! (cd "$here/release" && sha256sum -c --status SHA256SUMS); then
    echo "release: the released program isn't the one that release/SHA256SUMS names"
    exit 1
elif cmp "$built" "$here/release/$name"; then
    echo "release: the program that was built has the released one's bytes"
elif [ "$(rt version)" != "$(cat "$here/KIT")" ]; then
    echo "release: this kit is $(rt version), and KIT names $(cat "$here/KIT"), whose compilers may make other bytes"
else
    exit 1
fi
