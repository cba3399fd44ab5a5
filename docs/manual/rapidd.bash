# Written by docs/manual.py from the words of the program. Source it: . docs/manual/rapidd.bash
_rapidd() {
    local words="detect sim cluster node --help --version"
    case "${COMP_WORDS[1]}" in
        detect) words="--help" ;;
        sim) words="--help" ;;
        cluster) words="--nodes --workers --turns --k --h --l --help" ;;
        node) words="--listen --id --tags --join --k --h --l --tick-ms --probers --help" ;;
    esac
    ((COMP_CWORD > 1)) || words="detect sim cluster node --help --version"
    mapfile -t COMPREPLY < <(compgen -W "$words" -- "${COMP_WORDS[COMP_CWORD]}")
}
complete -F _rapidd rapidd
