# Completions of flamecollect for bash. Written by checks/manual from the help of the program.
_flamecollect() {
    local word=${COMP_WORDS[COMP_CWORD]} before=${COMP_WORDS[COMP_CWORD-1]} options
    COMPREPLY=()
    # After an option a value may stand behind `=`, which is a word of its own.
    if [ "$word" = = ]; then word=; elif [ "$before" = = ]; then before=${COMP_WORDS[COMP_CWORD-2]}; fi
    case ${COMP_WORDS[1]}/$before in
        */--format) COMPREPLY=($(compgen -W 'folded pprof' -- "$word")); return ;;
        */--unit) COMPREPLY=($(compgen -W 'nanoseconds microseconds milliseconds seconds bytes samples' -- "$word")); return ;;
        */--by) COMPREPLY=($(compgen -W 'own total' -- "$word")); return ;;
        */--every|*/--fail-over|*/--focus|*/--from|*/--hide|*/--least|*/--number|*/--omit|*/--output|*/--ring|*/--title|*/--type|*/--width|*/-n|*/-o|live/--page) return ;;
    esac
    if [ "$COMP_CWORD" = 1 ]; then
        COMPREPLY=($(compgen -W 'fold graph chart svg live compare top diff callers callees peek types help -h --help -V --version' -- "$word"))
        return
    fi
    case ${COMP_WORDS[1]} in
        fold) options='--type --format --lines --strict -o --output --quiet -h --help --focus --hide --from --omit --ring' ;;
        graph) options='--width --type --unit --format --every --lines --strict -o --output --quiet -h --help --focus --hide --from --omit --ring --page --svg --title --root-below --least' ;;
        chart) options='--width --type --unit --format --lines --strict -o --output --quiet -h --help --focus --hide --from --omit --ring --page --svg --title --root-below --least' ;;
        svg) options='--width --type --unit --format --lines --strict -o --output --quiet -h --help --focus --hide --from --omit --ring --title --root-below' ;;
        live) options='--width --every --strict -o --output --page -h --help --ring' ;;
        compare) options='--width --type --unit --format --boxes --lines --strict -o --output --quiet -h --help --focus --hide --from --omit --ring --page --svg --title --root-below --least --share' ;;
        top) options='-n --number --by --json --exact --type --unit --format --lines --strict -o --output --quiet -h --help --focus --hide --from --omit --ring' ;;
        diff) options='-n --number --by --json --exact --share --fail-over --type --unit --format --lines --strict -o --output --quiet -h --help --focus --hide --from --omit --ring' ;;
        callers) options='-n --number --json --exact --type --unit --format --lines --strict -o --output --quiet -h --help --focus --hide --from --omit --ring' ;;
        callees) options='-n --number --json --exact --type --unit --format --lines --strict -o --output --quiet -h --help --focus --hide --from --omit --ring' ;;
        peek) options='-n --number --json --exact --type --unit --format --lines --strict -o --output --quiet -h --help --focus --hide --from --omit --ring' ;;
        types) options='-o --output -h --help' ;;
        help) COMPREPLY=($(compgen -W 'fold graph chart svg live compare top diff callers callees peek types' -- "$word")); return ;;
        *) return ;;
    esac
    case $word in
        -*) COMPREPLY=($(compgen -W "$options" -- "$word")) ;;
        *) compopt -o filenames; mapfile -t COMPREPLY < <(compgen -f -- "$word") ;;
    esac
}
complete -F _flamecollect flamecollect
