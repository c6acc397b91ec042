# Completions of misere for bash: to be sourced, or put where bash-completion looks.
_misere() {
    local word=${COMP_WORDS[COMP_CWORD]} before=${COMP_WORDS[COMP_CWORD-1]} command= options= i
    for ((i = 1; i < COMP_CWORD; i++)); do
        case ${COMP_WORDS[i]} in -*) ;; *) command=${COMP_WORDS[i]}; break ;; esac
    done
    case $command in
        '') options="check solve series show describe play compare certify explain present catalogue desk infinite tail verify value apart help --help --version" ;;
        help) options="check solve series show describe play compare certify explain present catalogue desk infinite tail verify value apart help" ;;
        check) options="--limit --help" ;;
        solve) options="--limit --rounds --heaps --deep --any --partial --furthest --order --why --infinite --presented --help" ;;
        series) options="--order --heaps --limit --help" ;;
        show) options="--limit --help" ;;
        describe) options="--latex --basis --relations --json --singular --gap --gap-table --structure --presentation --limit --help" ;;
        play) options="--all --limit --help" ;;
        compare) options="--limit --help" ;;
        certify) options="--limit --help" ;;
        explain) options="--code --position --help" ;;
        present) options="--help" ;;
        catalogue) options="--new --add --get --heaps --salvage --migrate --table --json --limit --help" ;;
        desk) options="--help" ;;
        infinite) options="--show --latex --json --help" ;;
        tail) options="--limit --help" ;;
        verify) options="--limit --help" ;;
        value) options="--limit --help" ;;
        apart) options="--limit --help" ;;
    esac
    COMPREPLY=()
    case $before in
        --code | --furthest | --heaps | --limit | --order | --partial | --position | --rounds) return ;;
        --get)
            # the codes that the file names, which nobody has checked
            options=$(grep -o '"code":"[^"]*"' "${COMP_WORDS[i+1]}" 2> /dev/null | cut -d '"' -f 4)
            COMPREPLY=($(compgen -W "$options" -- "$word"))
            return ;;
    esac
    if [[ -z $command || $command == help || $word == -* ]]; then
        COMPREPLY=($(compgen -W "$options" -- "$word"))
        return
    fi
    case $command in check | show | describe | play | compare | certify | explain | catalogue | desk | infinite | tail | verify | value | apart) COMPREPLY=($(compgen -f -- "$word")) ;; esac
}
complete -o filenames -F _misere misere
