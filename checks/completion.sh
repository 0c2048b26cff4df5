#!/bin/bash
# Prints the completion of cellctl's words for bash, made of the program's own help texts. docs/cellctl.bash is what it prints.
# Usage: checks/completion.sh > docs/cellctl.bash     Build the program first: ./cellctl --prove does. CELLCTL names another one.
set -euo pipefail
source "$(dirname "$0")/helps.sh"

# The words that a value may be, where the help of `audit` lists them.
words_of() {
    "$cellctl" audit --help | awk -v name="$1" '$1 == name && /^  [A-Z]+  +[a-z]/ { $1 = ""; print substr($0, 2); exit }'
}

# The lines of `case` for the values of options: nothing is offered for a name or a number, where bash completes a file itself.
values() {
    local command option name known plain=
    for command in $(commands); do
        [ "$command" = help ] && continue
        while read -r option name; do
            [ -n "$name" ] || continue
            known=$(words_of "$name")
            if [ -n "$known" ]; then
                echo "            '$command $option') mapfile -t COMPREPLY < <(compgen -W '$known' -- \"\$word\"); return ;;"
            else
                plain+="${plain:+ | }'$command $option'"
            fi
        done < <(options "$command")
    done
    echo "            $plain) return ;;"
}

# The words that are offered after a command.
offered() {
    local command
    for command in $(commands); do
        if [ "$command" = help ]; then
            echo "            help) words='$(commands | grep -v '^help$' | paste -sd ' ')' ;;"
        else
            echo "            $command) words='$(options "$command" | grep -o -- '^--[a-z]*' | paste -sd ' ')' ;;"
        fi
    done
}

cat << END
# Made by checks/completion.sh of the program's help texts: completion of cellctl's words for bash. Source this file, or lay it under
# the name cellctl into a folder of bash-completion's, as ~/.local/share/bash-completion/completions.
_cellctl() {
    local word=\${COMP_WORDS[COMP_CWORD]} before=\${COMP_WORDS[COMP_CWORD - 1]} words=
    COMPREPLY=()
    if [ "\$COMP_CWORD" = 1 ]; then
        words='$({ commands; options | grep -o -- '^--[a-z]*'; } | paste -sd ' ')'
    else
        case "\${COMP_WORDS[1]} \$before" in
$(values)
        esac
        case \${COMP_WORDS[1]} in
$(offered)
        esac
        # Elsewhere a file may stand, which bash completes itself.
        [[ \${COMP_WORDS[1]} = help || \$word = -* ]] || return
    fi
    mapfile -t COMPREPLY < <(compgen -W "\$words" -- "\$word")
}
complete -o default -F _cellctl cellctl ./cellctl
END
