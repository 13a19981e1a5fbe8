#!/bin/sh
# Prints the path of the proved program of the sources as they stand, so that who starts it
# often looks at them once.
#
# It is the program that was put into out/ for them. Where there is none, the released one of
# dist/ is put there, if it was built from these sources for this machine, and else the program
# is proved and built. Where an rt is on the PATH, a program that another kit built counts for
# nothing. Status 125 is a program that couldn't be made, and 127 that there is no rt for it.
set -u

top=$(CDPATH='' cd -- "$(dirname -- "$0")/.." && pwd -P) || exit 125
# shellcheck source=scripts/stamp.sh
. "$top/scripts/stamp.sh"

say() {
    printf 'seuss: %s\n' "$*" >&2
}

stop() {
    status=$1
    shift
    say "$@"
    exit "$status"
}

# Sets kit to the line of the kit of rt, and kit_id to the file that has it. Both are empty
# where there is no rt or it stands in no kit's folder.
find_kit() {
    kit='' kit_id=''
    [ -n "$rt" ] || return 0
    place=$(readlink -f -- "$rt") || return 0
    kit_id=${place%/*}/../KIT-ID
    if [ -r "$kit_id" ]; then read -r kit <"$kit_id"; else kit_id=''; fi
}

# The paths of the sources, of the folders that may hold one, and of the kit.
list_paths() {
    (
        cd -- "$top" || exit
        find -L crates.txt HANDLES crates crates/* -maxdepth 0 -print0
        find -L crates/*/src crates/*/specs crates/*/proofs \
            \( -type d -o -name '[!.]*.rt' -o -name '[!.]*.antt' \) -print0
        [ -z "$kit_id" ] || printf '%s\0' "$rt" "$kit_id"
    ) 2>/dev/null
}

# Sets program and builder to a program that was put into out/ for these sources.
find_kept() {
    for folder in "$top/out/$digest".*/; do
        builder=$(cat -- "${folder}kit" 2>/dev/null) || continue
        [ -z "$kit" ] || [ "$kit" = "$builder" ] || continue
        program=${folder#"$top/"}seuss
        ! is_there "$top/$program" || return 0
    done
    return 1
}

# Puts the program of this file, which $builder built from these sources, into out/, and
# sets program to it. It comes there whole or not at all, whoever else does the same, and
# stays as it is.
keep() {
    name=$(printf '%s' "$builder" | tr -c 'A-Za-z0-9.-' -)
    folder=$top/out/$digest.$name
    mkdir -p -- "$folder" 2>/dev/null || return
    put 644 "$folder/kit" printf '%s\n' "$builder" || return
    put 755 "$folder/seuss" cat -- "$1" || return
    program=out/$digest.$name/seuss
}

# put MODE FILE COMMAND..: makes the file of what the command prints, in one step.
put() {
    mode=$1 file=$2
    shift 2
    new=$(mktemp -- "$file.XXXXXX" 2>/dev/null) || return
    "$@" >"$new" && chmod "$mode" "$new" && mv -f -- "$new" "$file" && return
    rm -f -- "$new"
    return 1
}

# What the released program's note says of this word.
said() {
    sed -n "s/^$1 //p" -- "$top/$release/built-from" 2>/dev/null
}

# Sets program and builder to the released program, where it is one of these sources for
# this machine. It runs where it stands if nothing can be put into out/.
find_released() {
    release=dist/$(uname -m)-$(uname -s | tr '[:upper:]' '[:lower:]')
    is_there "$top/$release/seuss" && [ "$(said sources)" = "$digest" ] || return
    builder=$(said kit)
    [ -z "$kit" ] || [ "$kit" = "$builder" ] || return
    [ "$(sha256sum <"$top/$release/seuss")" = "$(said program)  -" ] || return
    keep "$top/$release/seuss" || program=$release/seuss
}

# Shows on standard error, of what rt says, what tells how far it is, and passes on the
# rest. It ends where the program runs, whose lines are for no one.
watch() {
    while IFS= read -r line; do
        case $line in
        "rt: running "*) cat >/dev/null ;;
        "rt: "* | "so far: "*) printf '%s\n' "$line" >&2 ;;
        *) printf '%s\n' "$line" ;;
        esac
    done
}

# Proves and builds the program, and sets program and builder to it. An rt builds a
# program to run it, so it gets words that it answers with status 0.
build() {
    [ -n "$rt" ] ||
        stop 127 "no program was released of these sources for this machine," \
            "and there is no rt on the PATH to build it"
    say "proving and building crates/seuss, which takes minutes the first time"
    builder=${kit:-$(rt version </dev/null 2>/dev/null | sed 1q)}
    log=$(mktemp) || stop 125 "there is no place for a temporary file"
    ended=$({
        {
            (cd -- "$top/crates/seuss" && exec rt run -- call ../../examples/echo.elf) 2>&1 3>&-
            echo "$?" >&3
        } | watch >"$log"
    } 3>&1 </dev/null)
    if [ "$ended" != 0 ]; then
        cat -- "$log" >&2
        stop 125 "the build failed: rt ended with status $ended"
    fi
    # rt writes its stamp once a proved program is whole, and removes it before a build.
    built=$top/crates/seuss/out/seuss
    if ! [ -x "$built" ] || ! [ -f "$built.stamp" ] || [ "$(find_digest)" != "$digest" ]; then
        stop 125 "the build left no program of the sources as they stand:" \
            "were they edited meanwhile?"
    fi
    keep "$built" || stop 125 "the built program can't be put into $top/out"
    say "built"
}

find_digest() {
    sh "$top/scripts/source_digest.sh"
}

# Notes what stat says of a half of the list.
note_half() {
    (look "$looked/paths.$1") >"$looked/state.$1"
}

# Makes in out/ the folder that the next look compares with, and sets looked to it. Where
# nothing can be put there, or find is older than its 4.9, there is none.
begin_look() {
    mkdir -p -- "$top/out" 2>/dev/null && [ -w "$top/out" ] || return 0
    looked=$(mktemp -d -- "$top/out/look.XXXXXX" 2>/dev/null) || return 0
    list_paths >"$looked/paths"
    if ! split -t '\0' -n l/2 -- "$looked/paths" "$looked/paths." ||
        ! note_half aa || ! note_half ab; then
        drop_look
    fi
    # What is edited after the sources are read then has another time than is noted.
    sleep 0.1 2>/dev/null || sleep 1
}

# Notes the program for the look that was begun, and forgets the one before.
end_look() {
    [ -n "$looked" ] || return 0
    printf '%s\n' "$program" "$rt" >"$looked/program"
    before=$(cat -- "$top/out/stamp.$kind" 2>/dev/null)
    put 644 "$top/out/stamp.$kind" printf '%s\n' "${looked##*/}" || return 0
    looked=''
    case $before in look.*) rm -rf -- "$top/out/$before" ;; esac
}

drop_look() {
    [ -z "$looked" ] || rm -rf -- "$looked"
    looked=''
}

# Takes away what a run that ends leaves half made.
clean() {
    [ -z "$log" ] || rm -f -- "$log"
    drop_look
}

log='' looked=''
if ! find_stamped; then
    trap clean EXIT
    trap 'exit 129' HUP
    trap 'exit 130' INT
    trap 'exit 143' TERM
    find_kit
    begin_look
    digest=$(find_digest) || stop 125 "the sources can't be read"
    find_kept || find_released || build
    end_look
    program=$top/$program
fi
printf '%s\n' "$program"
