# What scripts read of the program's own help texts; they source this file. CELLCTL names another program than the one that was built.
cellctl=${CELLCTL:-$(cd "$(dirname "${BASH_SOURCE[0]}")/.." && pwd)/crates/cellctl/out/cellctl}

# The commands that the help of the program lists.
commands() {
    "$cellctl" --help | awk '/^Commands:/ { on = 1; next } /^[^ ]/ { on = 0 } on && NF { print $1 }'
}

# The options that the help of a command lists, one a line: `--file FILE` and `-f FILE` of one with a value, `--help` of a flag.
options() {
    "$cellctl" "$@" --help | awk '
        /^[^ ]/ { on = ($0 == "Options:") ; next }
        on && /^ +-/ {
            value = match($0, /<[A-Z\/]+>/) ? " " substr($0, RSTART + 1, RLENGTH - 2) : ""
            if (match($0, /--[a-z]+/)) print substr($0, RSTART, RLENGTH) value
            if (value && match($0, /-[a-z],/)) print substr($0, RSTART, RLENGTH - 1) value
        }'
}
