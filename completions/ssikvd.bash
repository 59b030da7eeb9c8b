# Completion of ssikvd for bash. The package bash-completion finds it by its name.

_ssikvd() {
    local word=${COMP_WORDS[COMP_CWORD]} before=${COMP_WORDS[COMP_CWORD - 1]} command=${COMP_WORDS[1]} words=''
    COMPREPLY=()
    case $before in
        --data | --from | --to)
            compopt -o filenames
            mapfile -t COMPREPLY < <(compgen -f -- "$word")
            return ;;
        --listen | --sectors) return ;;
    esac
    if [ "$COMP_CWORD" -eq 1 ]; then
        words='create serve check compact play help -h --help -V --version'
    else
        case $command in
            create) words='--data --sectors -h --help' ;;
            serve) words='--data --listen -h --help' ;;
            check) words='--data -h --help' ;;
            compact) words='--from --to --sectors -h --help' ;;
            play) words='--sectors -h --help' ;;
            help) words='create serve check compact play help' ;;
        esac
    fi
    mapfile -t COMPREPLY < <(compgen -W "$words" -- "$word")
}
complete -F _ssikvd ssikvd
