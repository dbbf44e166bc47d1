# Completion for bash of the program vjson.
_vjson() {
    local word=${COMP_WORDS[COMP_CWORD]} before=${COMP_WORDS[COMP_CWORD - 1]} words
    if [ "$COMP_CWORD" -eq 1 ]; then
        mapfile -t COMPREPLY < <(compgen -W 'check format get sort count equal keys --help --version' -- "$word"
            compgen -f -- "$word")
        return
    fi
    case $before in
        --indent | --default | --by | --down | --where | --has | --lacks) return ;;
    esac
    case $word in
        -*)
            words='--extended --extended-json --standard --progress --no-progress --help'
            case ${COMP_WORDS[1]} in
                check) words="$words --lines --quiet" ;;
                format) words="$words --where --has --lacks --lines --compact --indent --line-buffered" ;;
                get) words="$words --where --has --lacks --lines --raw --array --default --line-buffered" ;;
                sort) words="$words --where --has --lacks --lines --unique --reverse --by --down --check --canonical" ;;
                count) words="$words --where --has --lacks --lines --reverse --by --down" ;;
                equal) words="$words --quiet --diff" ;;
                keys) words="$words --where --has --lacks --lines --by --down --canonical --line-buffered" ;;
            esac
            mapfile -t COMPREPLY < <(compgen -W "$words" -- "$word")
            ;;
        *) mapfile -t COMPREPLY < <(compgen -f -- "$word") ;;
    esac
}
complete -o filenames -F _vjson vjson
