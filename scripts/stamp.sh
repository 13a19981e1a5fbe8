# shellcheck shell=sh
# The look that tells, for little time, whether the program that was found last is still that of
# the sources: what ./seuss and program_path.sh share. $top is the repository.
#
# shellcheck disable=SC2154 # (who sources this sets top)
#
# out/stamp.KIND names a folder of out/, whose files are: program, with the program's path below
# $top and the path of the rt that was on the PATH; paths, each source, each folder that may hold
# one, and rt with its kit's name; paths.aa and paths.ab, the halves of that list, which are
# looked at side by side; and state.aa and state.ab, what stat says of those. KIND is kit where
# there is an rt on the PATH, and else none.

# Sets rt to the path of the first rt on the PATH, or to nothing, and kind.
find_rt() {
    rt='' kind=none
    old_ifs=$IFS
    IFS=:
    set -f
    for folder in $PATH; do
        if [ -f "$folder/rt" ] && [ -x "$folder/rt" ]; then
            rt=$folder/rt kind=kit
            break
        fi
    done
    set +f
    IFS=$old_ifs
}

# The number, size and time of change of each of the paths in this file, where a change that
# keeps the time of writing, or is made with the clock set back, is seen too. What was added,
# renamed or removed is seen by its folder. It is called in a shell of its own.
look() {
    cd -- "$top" || exit
    export LC_ALL=C
    exec find -L -files0-from "$1" -maxdepth 0 -printf '%i %s %C@\n' 2>/dev/null
}

# Whether there is the program at this path.
is_there() {
    [ -x "$1" ] && [ -s "$1" ] && [ ! -d "$1" ]
}

# Whether nothing of this half of the list was touched since it was noted.
is_untouched() {
    look "$stamped/paths.$1" | cmp -s - "$stamped/state.$1"
}

# Sets program to the one that was found last, where it is there and nothing was touched since.
find_stamped() {
    find_rt
    [ -r "$top/out/stamp.$kind" ] || return
    read -r stamped <"$top/out/stamp.$kind" || return
    stamped=$top/out/$stamped
    { read -r program && read -r stamped_rt; } 2>/dev/null <"$stamped/program" || return
    [ "$rt" = "$stamped_rt" ] && is_there "$top/$program" || return
    program=$top/$program
    is_untouched aa &
    other=$!
    is_untouched ab
    untouched=$?
    wait "$other" && return "$untouched"
}
