# shellcheck shell=bash
# Completion of the words of seuss, for bash: `. scripts/completion.bash`, or as installed.

_seuss() {
    COMPREPLY=()
    case $COMP_CWORD in
    1) mapfile -t COMPREPLY < <(compgen -W 'call asm dis' -- "$2") ;;
    2)
        [ "${COMP_WORDS[1]}" = call ] || return 0
        compopt -o filenames 2>/dev/null
        mapfile -t COMPREPLY < <(compgen -f -- "$2")
        ;;
    esac
}

complete -F _seuss seuss ./seuss
