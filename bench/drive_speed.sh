#!/usr/bin/env bash
# Times `cellctl drive` beside a method that answers at once: a C program that writes the same lines in each round.
# Usage: bench/drive_speed.sh [ROUNDS]     100,000 rounds unless said. It needs gcc. CELLCTL names another program.
set -euo pipefail
here=$(cd "$(dirname "$0")" && pwd)
cellctl=${CELLCTL:-$here/../crates/cellctl/out/cellctl}
rounds=${1:-100000}
work=$(mktemp -d)
trap 'rm -rf "$work"' EXIT
mkfifo "$work/lines"
printf 'plates = 1\nturns = %s\n' "$rounds" > "$work/settings"
cat > "$work/method.c" <<'C'
#include <stdio.h>
#include <string.h>

int main(int count, char **words) {
    static char line[4096];
    while (fgets(line, sizeof line, stdin)) {
        if (strncmp(line, "round,", 6) == 0) {
            fputs(words[1], stdout);
            fflush(stdout);
        }
    }
    return 0;
}
C
gcc -O2 -o "$work/method" "$work/method.c"

# drive LINES WORDS..  Lets the method write these lines in each round, and says how many rounds a second there were.
drive() {
    local lines=$1 start took
    shift
    start=$(date +%s%N)
    "$cellctl" drive "$@" "$work/settings" /dev/null /dev/null < "$work/lines" | "$work/method" "$lines" > "$work/lines" || true
    took=$((($(date +%s%N) - start) / 1000))
    printf '%s %q: %s rounds in %s ms, %s rounds a second\n' "$*" "$lines" "$rounds" $((took / 1000)) $((rounds * 1000000 / took))
}

drive $'done,,,\n' --raw
drive $'lamp,deposit,green,\nlamp,deposit,red,\ndone,,,\n' --raw
drive $'done,,,\n'
drive $'lamp,feed,red,\nadmitted,1,,\ndone,,,\n'
