#!/bin/bash
# Makes an archive of the released program, its manual page and its completion for bash: a folder that is named after the program
# and its version, in which they lie as `make install` lays them below PREFIX. The same release gives the same bytes.
# Usage: checks/archive.sh [FOLDER]     FOLDER: where the archive is laid, dist by default
set -euo pipefail
here=$(cd "$(dirname "$0")/.." && pwd)
folder=${1:-$here/dist}
work=$(mktemp -d)
trap 'rm -rf "$work"' EXIT
version=$("$here/release/cellctl-x86_64-linux" --version)
name=${version/ /-}-x86_64-linux
make -s -C "$here" install DESTDIR="$work" PREFIX="/$name"
mkdir -p "$folder"
(cd "$work" && find "$name" -print0 | LC_ALL=C sort -z |
    tar --create --null --no-recursion --files-from=- --format=ustar --mtime=@0 --mode=u=rwX,go=rX --owner=0 --group=0 --numeric-owner) |
    gzip -n > "$folder/$name.tar.gz"
(cd "$folder" && sha256sum "$name.tar.gz")
