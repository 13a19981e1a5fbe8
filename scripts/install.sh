#!/bin/sh
# Puts the program, its manual page, the kit for C and the examples into a folder, where they
# run without this repository.
#
#   install.sh [--program FILE] PREFIX   puts them below PREFIX; FILE is the program, and else
#                                        the one that program_path.sh prints
#   install.sh --uninstall PREFIX        takes away what was put there, and nothing else
#
# PREFIX/share/seuss/installed has a line for each file. Status 1 is a file that can't be put
# there, and 2 other words.
set -u

top=$(CDPATH='' cd -- "$(dirname -- "$0")/.." && pwd -P) || exit 1

stop() {
    status=$1
    shift
    printf 'install.sh: %s\n' "$*" >&2
    exit "$status"
}

usage() {
    stop 2 "its words are [--program FILE] PREFIX, or --uninstall PREFIX"
}

# The files that are put there, as lines MODE SOURCE TARGET, the last below PREFIX.
files() {
    echo "755 $program bin/seuss"
    echo "644 docs/seuss.1 share/man/man1/seuss.1"
    echo "644 scripts/completion.bash share/bash-completion/completions/seuss"
    echo "644 README.md share/doc/seuss/README.md"
    for page in FORMATS MODEL PLANS; do
        echo "644 docs/$page.md share/doc/seuss/docs/$page.md"
    done
    echo "755 guest/seuss-cc share/seuss/guest/seuss-cc"
    for name in README.md memory.S seuss.h seuss.ld seuss.rs start.S; do
        echo "644 guest/$name share/seuss/guest/$name"
    done
    echo "755 guest/trigger share/seuss/guest/trigger"
    find examples -type f ! -name '.*' ! -path '*/__pycache__/*' | LC_ALL=C sort |
        while read -r file; do echo "644 $file share/seuss/$file"; done
}

# Whether the file below PREFIX was put there by this.
is_ours() {
    [ -f "$noted" ] && grep -qxF -- "$1" "$noted"
}

# Stops before anything is changed where a file of someone else's stands in the way.
look_for_others() {
    files | while read -r _ _ target; do
        if [ -e "$prefix/$target" ] && ! is_ours "$target"; then
            stop 1 "$prefix/$target is there, and wasn't put there by this"
        fi
    done || exit
}

# Puts each file in one step, so that a program that runs isn't disturbed.
put_all() {
    files | while read -r mode source target; do
        folder=$prefix/${target%/*}
        mkdir -p -- "$folder" && new=$(mktemp -- "$folder/.seuss.XXXXXX") &&
            cat -- "$source" >"$new" && chmod "$mode" "$new" &&
            mv -f -- "$new" "$prefix/$target" || stop 1 "$prefix/$target can't be made"
    done || exit
    ln -sf ../share/seuss/guest/seuss-cc "$prefix/bin/seuss-cc" || exit 1
}

install() {
    cd -- "$top" || exit 1
    [ -n "$program" ] || program=$(sh scripts/program_path.sh) || exit
    look_for_others
    old=$(cat -- "$noted" 2>/dev/null)
    put_all
    { files | sed 's/^[0-9]* .* //' && echo bin/seuss-cc && echo share/seuss/installed; } >"$noted"
    # What an earlier version put there and this one doesn't have goes.
    printf '%s\n' "$old" | while read -r target; do
        [ -z "$target" ] || is_ours "$target" || rm -f -- "$prefix/$target"
    done
}

uninstall() {
    [ -f "$noted" ] || stop 1 "nothing was put into $prefix by this: there is no $noted"
    list=$(cat -- "$noted") || exit 1
    printf '%s\n' "$list" | while read -r target; do
        rm -f -- "$prefix/$target"
    done
    # Folders that are empty now, each after those below it.
    printf '%s\n' "$list" | while read -r target; do
        while [ "$target" != "${target%/*}" ]; do
            target=${target%/*}
            rmdir -- "$prefix/$target" 2>/dev/null || break
        done
    done
}

program='' act=install
while [ $# -gt 1 ]; do
    case $1 in
    --uninstall) act=uninstall ;;
    --program)
        [ -f "$2" ] || stop 2 "there is no program $2"
        program=$(readlink -f -- "$2") || exit 1
        shift
        ;;
    *) usage ;;
    esac
    shift
done
case ${1-} in '' | -*) usage ;; esac
case $1 in
/*) prefix=$1 ;;
*) prefix=$PWD/$1 ;;
esac
noted=$prefix/share/seuss/installed
"$act"
