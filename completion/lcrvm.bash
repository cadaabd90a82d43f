# Completion of lcrvm for bash: commands, the options of each, folders of stores and files of logs.

_lcrvm() {
    local word=${COMP_WORDS[COMP_CWORD]} before=${COMP_WORDS[COMP_CWORD - 1]} command='' options='' kind='' place
    local commands='run init recover check dump inspect lines draw copy help'
    local size='--nodes --threads --segments --pages --words'
    COMPREPLY=()

    for ((place = 1; place < COMP_CWORD; place++)); do
        [[ ${COMP_WORDS[place]} == -* ]] || { command=${COMP_WORDS[place]}; break; }
    done
    case $command in
        '') options='--help --version'; kind=commands ;;
        help) kind=commands ;;
        run) options="$size --store --follow --number --as-found --help" ;;
        init | copy) options="$size --help"; kind=folder ;;
        recover) options="$size --as-found --help"; kind=folder ;;
        check) options="$size --as-found --json --help"; kind=folder ;;
        dump | draw) options='--help'; kind=folder ;;
        inspect) options='--reverse --help'; kind=file ;;
        lines) options='--help' ;;
    esac
    case $before in
        --store) options=''; kind=folder ;;
        --nodes | --threads | --segments | --pages | --words) return ;;
    esac

    if [[ $word == -* ]]; then
        mapfile -t COMPREPLY < <(compgen -W "$options" -- "$word")
        return
    fi
    case $kind in
        commands) mapfile -t COMPREPLY < <(compgen -W "$commands" -- "$word") ;;
        folder) compopt -o filenames 2> /dev/null; mapfile -t COMPREPLY < <(compgen -d -- "$word") ;;
        file) compopt -o filenames 2> /dev/null; mapfile -t COMPREPLY < <(compgen -f -- "$word") ;;
    esac
}

complete -F _lcrvm lcrvm
