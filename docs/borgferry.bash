# Completion of borgferry's words for bash: folders for SOURCE and TARGET, then a command and its options.

_borgferry() {
    local word=${COMP_WORDS[COMP_CWORD]} commands="keys key list extract check restore init plan transfer delete tag-archives compact make-key drill" options=""
    case $COMP_CWORD in
    1 | 2)
        mapfile -t COMPREPLY < <(compgen -d -- "$word")
        compopt -o filenames
        [ "$COMP_CWORD" -eq 1 ] && [[ $word == -* ]] && mapfile -t COMPREPLY < <(compgen -W "- -h --help --version" -- "$word")
        return
        ;;
    3)
        mapfile -t COMPREPLY < <(compgen -W "$commands" -- "$word")
        return
        ;;
    esac
    case ${COMP_WORDS[3]} in
    init) options="--iterations --timestamp" ;;
    plan) options="--block" ;;
    transfer) options="--block --checkpoint --timestamp" ;;
    delete) options="--timestamp" ;;
    tag-archives) options="--timestamp" ;;
    compact) options="--threshold" ;;
    make-key) options="--iterations" ;;
    esac
    [ "$COMP_CWORD" -eq 4 ] && options="$options --help"
    mapfile -t COMPREPLY < <(compgen -W "$options" -- "$word")
}
complete -F _borgferry borgferry
