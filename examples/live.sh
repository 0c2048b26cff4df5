#!/bin/bash
# A cell that people may touch: the controller controls examples/plants/live.py, which shows itself on a page of this machine, where
# one breaks parts by a click, takes plates out and stands at the operator's desk. It needs python3 and a browser.
# Usage: examples/live.sh [--method COMMAND] [PORT [PLATES]]     or PORT and PLATES in the environment; 8891 and 60 without.
# Ctrl-C ends all. With --method COMMAND is in the controller's place: a method by commands, as of `cellctl drive --raw`, as
# examples/live.sh --method examples/methods/hasty.py; nothing is booked then, and nobody refuses what it commands.
# PACE is how many times as fast as real time the cell is, 1 without; TAKE has how many seconds motions take, as
# TAKE="press_two=3 arm_one=1"; JOURNAL is a new file for the journal, which is thrown away without; CELLCTL another program.
set -u
method=
if [ "${1-}" = --method ] && [ -n "${2-}" ]; then
    method=$2
    shift 2
fi
case ${1-} in
    -*)
        sed -n '4,9s/^# //p' "$0" >&2
        exit 2
        ;;
esac
here=$(cd "$(dirname "$0")/.." && pwd) || exit 1
cellctl=${CELLCTL:-$here/cellctl}
port=${1:-${PORT:-8891}}
plates=${2:-${PLATES:-60}}
if [ "$cellctl" = "$here/cellctl" ] && "$cellctl" --which | grep -q '^none'; then
    echo "live: $("$cellctl" --which); ./cellctl --prove proves and builds it" >&2
    exit 3
fi
work=$(mktemp -d) || exit 3
plant=
controller=
finish() {
    trap - EXIT INT TERM HUP
    for process in $controller $plant; do kill -- "-$process" 2>/dev/null || kill "$process" 2>/dev/null; done
    for process in $controller $plant; do wait "$process" 2>/dev/null; done
    rm -rf "$work"
    exit "$1"
}
trap 'finish 0' INT TERM HUP
trap 'finish $?' EXIT

journal=${JOURNAL:-$work/run.journal}
case $journal in /*) ;; *) journal=$PWD/$journal ;; esac
if [ -e "$journal" ]; then
    echo "live: $journal is there already: the journal has to be a new file" >&2
    exit 2
fi
# As many turns and entries as there may be, since a run that waits for the desk takes turns too. A long motion is waited for.
printf '%s\n' "plates = $plates" "turns = 10000000" "journal_limit = 1000000" > "$work/cell.toml"
printf '%s\n' ${TAKE-} | awk -F= '$2 > 1.7 { printf "[watch.%s]\nlimit = %d\n", $1, $2 * 10 + 3 }' >> "$work/cell.toml"
if ! "$cellctl" explain --settings "$work/cell.toml" > "$work/said" 2>&1; then
    cat "$work/said" >&2
    exit 2
fi

# The pipes are held open here, so that the cell outlives its controller.
mkfifo "$work/lines" "$work/commands" || exit 3
exec 3<> "$work/lines" 4<> "$work/commands"
run=("$cellctl" control --journal "$journal")
rest=(--wait --explain "$work/cell.toml" /dev/null)
resume="$(printf '%q ' "${run[@]}" --resume "${rest[@]}")< $(printf %q "$work/lines") > $(printf %q "$work/commands")"
other=(--journal "$journal" --resume "$resume")
[ -z "$method" ] || other=("--method=$method")
for motion in ${TAKE-}; do other+=(--take "$motion"); done
"$here/examples/plants/live.py" "$plates" --port "$port" --program "$cellctl" --pace "${PACE:-1}" \
    --address "$work/address" --told "$work/told" "${other[@]}" < "$work/commands" > "$work/lines" 3<&- 4<&- &
plant=$!
until [ -s "$work/address" ]; do
    if ! kill -0 "$plant" 2>/dev/null; then
        wait "$plant"
        status=$?
        plant=
        exit "$status"
    fi
    sleep 0.1
done
echo "The cell is at $(cat "$work/address")"
if [ -n "$method" ]; then
    # In a group of its own, so that all that it starts ends with it. It alone reads the plant's lines, so that it sees their end.
    # What it says is said here, and at its end on the page too.
    exec 5< "$work/lines" 3<&-
    setsid bash -c "$method" <&5 > "$work/commands" 2> >(tee "$work/told" >&2) 4<&- 5<&- &
    controller=$!
    exec 5<&-
    echo "At its other end is process $controller, a method by commands: $method. Ctrl-C here ends all."
    wait "$controller"
    status=$?
    controller=
    echo "The method has ended, with status $status."
    echo quit,,, >&4  # so that the plant ends its run too, if it hasn't
    wait "$plant"
    exit
fi
"${run[@]}" "${rest[@]}" < "$work/lines" > "$work/commands" 2> "$work/told" 3<&- 4<&- &
controller=$!
echo "Its controller is process $controller: after \"kill -9 $controller\" the page says how it goes on. Ctrl-C here ends all."
wait "$controller" 2> /dev/null
status=$?
controller=
if [ "$status" -gt 128 ]; then
    echo "The controller is gone, by signal $((status - 128)). The page says how it goes on."
else
    echo "The controller has ended, with status $status:"
    cat "$work/told"
fi
wait "$plant"
