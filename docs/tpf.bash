# Completions of tpf for bash, made by bench/manual: source docs/tpf.bash
_tpf() {
    local word="${COMP_WORDS[COMP_CWORD]}" before="${COMP_WORDS[COMP_CWORD - 1]}" options=
    COMPREPLY=()
    if [ "$COMP_CWORD" -eq 1 ]; then
        mapfile -t COMPREPLY < <(compgen -W "federate local make query serve help install --help --version" -- "$word")
        return
    fi
    case "$before" in
        --run) mapfile -t COMPREPLY < <(compgen -f -- "$word"); return ;;
        --base|--block|--budget|--fail-every|--graph|--links|--max-body|--page|--reload|--retries|--seed|--stop-after|--window) return ;;
    esac
    case "${COMP_WORDS[1]}" in
        federate) options="--links --window --retries --budget --max-body" ;;
        local) options="--graph --union --page --links --window --block --retries --budget --max-body --seed --fail-every" ;;
        make) options="--run" ;;
        query) options="--links --window --block --retries --budget --max-body" ;;
        serve) options="--base --graph --union --page --stop-after --reload --rows" ;;
        install) mapfile -t COMPREPLY < <(compgen -d -- "$word"); return ;;
        *) return ;;
    esac
    case "$word" in
        -*) mapfile -t COMPREPLY < <(compgen -W "$options" -- "$word") ;;
        *) mapfile -t COMPREPLY < <(compgen -f -- "$word") ;;
    esac
}
complete -o filenames -F _tpf tpf ./tpf
