# Made by checks/completion.sh of the program's help texts: completion of cellctl's words for bash. Source this file, or lay it under
# the name cellctl into a folder of bash-completion's, as ~/.local/share/bash-completion/completions.
_cellctl() {
    local word=${COMP_WORDS[COMP_CWORD]} before=${COMP_WORDS[COMP_CWORD - 1]} words=
    COMPREPLY=()
    if [ "$COMP_CWORD" = 1 ]; then
        words='audit migrate show explain measure events check sim sweep explore drive control run help --help --version'
    else
        case "${COMP_WORDS[1]} $before" in
            'explore --fail') mapfile -t COMPREPLY < <(compgen -W 'feed table robot press1 press2 deposit' -- "$word"); return ;;
            'show --from' | 'show --count' | 'show --times' | 'show --beside' | 'show --animate' | 'show --file' | 'show -f' | 'explain --settings' | 'explain --faults' | 'explain --operator' | 'measure --times' | 'events --times' | 'sim --times' | 'sim --follow' | 'sim --from' | 'sweep --kinds' | 'sweep --motions' | 'sweep --random' | 'sweep --seed' | 'sweep --faults' | 'sweep --part' | 'sweep --threads' | 'explore --limit' | 'explore --threads' | 'drive --times' | 'drive --from' | 'control --journal' | 'run --times') return ;;
        esac
        case ${COMP_WORDS[1]} in
            audit) words='--help' ;;
            migrate) words='--help' ;;
            show) words='--svg --html --unicode --from --count --times --beside --animate --file --help' ;;
            explain) words='--settings --faults --operator --help' ;;
            measure) words='--times --csv --svg --help' ;;
            events) words='--times --csv --trace --vcd --help' ;;
            check) words='--help' ;;
            sim) words='--journal --explain --times --follow --from --measures --help' ;;
            sweep) words='--kinds --motions --pairs --random --seed --faults --part --threads --service --csv --svg --help' ;;
            explore) words='--fail --repair --limit --journal --threads --help' ;;
            drive) words='--raw --journal --explain --times --from --help' ;;
            control) words='--journal --resume --sync --wait --explain --help' ;;
            run) words='--journal --explain --times --measures --help' ;;
            help) words='audit migrate show explain measure events check sim sweep explore drive control run' ;;
        esac
        # Elsewhere a file may stand, which bash completes itself.
        [[ ${COMP_WORDS[1]} = help || $word = -* ]] || return
    fi
    mapfile -t COMPREPLY < <(compgen -W "$words" -- "$word")
}
complete -o default -F _cellctl cellctl ./cellctl
