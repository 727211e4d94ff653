# Completion of swistopal for bash: source it, or put it into bash-completion's folder under the name swistopal.

_swistopal() {
    local word=${COMP_WORDS[COMP_CWORD]} before=${COMP_WORDS[COMP_CWORD - 1]} options
    COMPREPLY=()
    if ((COMP_CWORD == 1)); then
        mapfile -t COMPREPLY < <(compgen -W 'demo list report rebuild query queue show check --help --version' -- "$word")
        return
    fi
    case ${COMP_WORDS[1]} in
        demo) options='--help' ;;
        list) options='--from --limit --topic --from-time --to-time --resync --long --json --jsonl --end --segment-size --help' ;;
        report) options='--from-time --to-time --queues --html --json --end --segment-size --help' ;;
        rebuild) options='--into --force --shorten --after-crash --queues --budget --batch --entries --slots --items --restart --json --end --segment-size --help' ;;
        query) options='--topic --key --unique-key --from --to --limit --body --scan --json --jsonl --slots --end --segment-size --help' ;;
        queue) options='--topic --queue --start --limit --tag --body --json --jsonl --end --segment-size --help' ;;
        show) options='--raw --json --end --segment-size --help' ;;
        check) options='--bodies --queues --slots --items --json --jsonl --end --segment-size --help' ;;
        *) return ;;
    esac
    case $before in
        --queues | --html)
            compopt -o filenames 2> /dev/null
            mapfile -t COMPREPLY < <(compgen -f -- "$word")
            return
            ;;
        --into)
            compopt -o filenames 2> /dev/null
            mapfile -t COMPREPLY < <(compgen -d -- "$word")
            return
            ;;
        --topic)
            # The topics that have queues in the store named before. Their names may be any bytes: nothing expands them.
            local place path
            for place in "${COMP_WORDS[@]:2}"; do
                for path in "$place"/consumequeue/*/; do
                    path=${path%/}
                    path=${path##*/}
                    if [[ -d $place/consumequeue/$path && $path == "$word"* ]]; then
                        COMPREPLY+=("$(printf '%q' "$path")")
                    fi
                done
            done
            return
            ;;
        --json | --jsonl | --long | --resync | --body | --bodies | --scan | --raw | --force | --shorten | --after-crash | --restart | --help) ;;
        --*) return ;;
    esac
    if [[ $word == -* ]]; then
        mapfile -t COMPREPLY < <(compgen -W "$options" -- "$word")
    else
        compopt -o filenames 2> /dev/null
        if [[ ${COMP_WORDS[1]} == list || ${COMP_WORDS[1]} == report || ${COMP_WORDS[1]} == show ]]; then
            mapfile -t COMPREPLY < <(compgen -f -- "$word")
        else
            mapfile -t COMPREPLY < <(compgen -d -- "$word")
        fi
    fi
}

complete -F _swistopal swistopal
