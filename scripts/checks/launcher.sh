#!/bin/bash
# The launcher ./seuss: in a small tree of its own, with programs and kits that only say
# who they are, and then in fresh clones of this one.
# shellcheck source=scripts/check_lib.sh
. "$(dirname -- "${BASH_SOURCE[0]}")/../check_lib.sh"

house=$work/house
kits=$work/kits
target=$(uname -m)-$(uname -s | tr '[:upper:]' '[:lower:]')
tools='sh dirname readlink find cmp cat sed sort sha256sum tr uname mkdir mktemp chmod mv'
tools="$tools rm sleep split"
building='seuss: proving and building crates/seuss, which takes minutes the first time\n'
progress='rt: chose --jobs 4 for seuss\nso far: 1 of 1 functions checked\n'
no_rt='seuss: no program was released of these sources for this machine,'
no_rt="$no_rt and there is no rt on the PATH to build it\\n"
nothing_left='seuss: the build left no program of the sources as they stand:'
nothing_left="$nothing_left were they edited meanwhile?\\n"

# Runs the words with a PATH that has only the named tools.
with_tools() {
    local tool folder
    folder=$work/tools-$1
    mkdir -p -- "$folder"
    for tool in $1; do
        ln -sf -- "$(command -v "$tool")" "$folder/$tool" || return
    done
    PATH=$folder "${@:2}"
}

# Runs the words with what the launcher calls on the PATH, and no rt.
without_rt() {
    with_tools "$tools" "$@"
}

# with_kit NAME COMMAND..: runs the words with the kit's rt on the PATH.
with_kit() {
    PATH=$kits/$1/path:$PATH "${@:2}"
}

in_folder() {
    (cd -- "$1" && "${@:2}")
}

with_house_on_path() {
    PATH=$house:$PATH "$@"
}

# Runs the words where CDPATH leads to another folder of the same name.
with_cdpath() {
    mkdir -p -- "$work/other/house/scripts"
    CDPATH=$work/other "$@"
}

# ending_with STATUS COMMAND..: has the program end with this status.
ending_with() {
    ends=$1 "${@:2}"
}

# Makes a program that says its name and its words, copies its source and ends with $ends.
program_of() {
    cat >"$1" <<END
#!/bin/sh
printf '$2:'
printf ' <%s>' "\$@"
echo
$(command -v cat)
exit "\${ends:-0}"
END
    chmod +x "$1"
}

# Makes the kit NAME of this line, whose rt is reached by a link and does as the text says.
make_kit() {
    mkdir -p -- "$kits/$1/kit/bin" "$kits/$1/path"
    [ -z "$2" ] || echo "$2" >"$kits/$1/kit/KIT-ID"
    cat >"$kits/$1/kit/bin/rt"
    chmod +x "$kits/$1/kit/bin/rt"
    ln -sf ../kit/bin/rt "$kits/$1/path/rt"
}

# Makes a kit that builds the program NAME as rt run does.
make_builder() {
    program_of "$kits/$1.program" "$1"
    make_kit "$1" "$2" <<END
#!/bin/sh
echo "\$*" >>"$work/calls"
echo 'rt: chose --jobs 4 for seuss'
echo 'so far: 1 of 1 functions checked'
echo 'fn seuss::main: proved' >&2
mkdir -p out && cp "$kits/$1.program" out/seuss && : >out/seuss.stamp || exit
echo 'rt: running out/seuss; to give it other input, run that file yourself'
echo 'a line of the program'
echo 'another' >&2
END
}

# Notes the released program, as of the sources as they stand and the kit of this line.
release() {
    local digest sum
    digest=$(sh "$house/scripts/source_digest.sh") &&
        sum=$(sha256sum <"$house/dist/$target/seuss") &&
        printf 'sources %s\nkit %s\nprogram %s\n' "$digest" "$1" "${sum%% *}" \
            >"$house/dist/$target/built-from"
}

make_house() {
    mkdir -p -- "$kits" "$house"/{scripts,examples,"dist/$target",crates/low/src} \
        "$house"/crates/seuss/{src,specs,proofs} &&
        cp -- "$top/seuss" "$house/" &&
        cp -- "$top"/scripts/{source_digest,stamp,program_path}.sh "$house/scripts/" &&
        cp -- "$top/examples/echo.elf" "$house/examples/" || return
    printf 'low:\nseuss: low\n' >"$house/crates.txt"
    echo handles >"$house/HANDLES"
    echo low >"$house/crates/low/src/lib.rt"
    echo main >"$house/crates/seuss/src/main.rt"
    program_of "$house/dist/$target/seuss" released
    make_builder first "kit one"
    make_builder second "kit two"
    make_builder unknown ""
    release "kit one"
}

# The path below the house of the released program that was put into out/.
echo_path() {
    local digest
    digest=$(sh "$house/scripts/source_digest.sh") && echo "out/$digest.kit-one/seuss"
}

# Where the sources are the released ones.
check_release() {
    local links=$work/links
    expect "the released program, with no rt" 0 'released: <call> <x>\nsource' '' \
        without_rt ./seuss call x
    expect "the checked program's path" 0 "$house/$(echo_path)\\n" '' \
        without_rt sh scripts/program_path.sh
    expect "again, with no more than find and cmp" 0 'released: <call> <x>\nsource' '' \
        with_tools "find cmp" ./seuss call x
    expect "each word" 0 'released: <> <a  b> <\xff> <-*> <\n>\nsource' '' \
        without_rt ./seuss '' 'a  b' $'\xff' '-*' $'\n'
    expect "the program's status" 7 'released: <x>\nsource' '' ending_with 7 without_rt ./seuss x
    mkdir -p -- "$links" "$work/elsewhere"
    ln -s ../house/seuss "$links/by-link"
    ln -s by-link "$links/by-two-links"
    ln -s house "$work/by-folder"
    expect "a link, from another folder" 0 'released: <x>\nsource' '' \
        in_folder "$links" without_rt ./by-two-links x
    expect "a link to the clone" 0 'released: <x>\nsource' '' without_rt ../by-folder/seuss x
    expect "a path, from another folder" 0 'released: <x>\nsource' '' \
        in_folder "$work/elsewhere" without_rt ../house/seuss x
    expect "a folder that CDPATH has too" 0 'released: <x>\nsource' '' \
        in_folder "$work" without_rt with_cdpath house/seuss x
    cp -- "$house/seuss" "$work/elsewhere/copy"
    expect "a copy outside the repository" 125 '' \
        "seuss: ./copy is a copy outside its repository: link it, or run scripts/install.sh\\n" \
        in_folder "$work/elsewhere" without_rt ./copy x
    expect "a launcher on the PATH" 0 'released: <x>\nsource' '' \
        in_folder "$work/elsewhere" without_rt with_house_on_path seuss x
}

# What is to be seen, whatever tries to hide it: a program of other sources never runs.
check_sources() {
    local main=$house/crates/seuss/src/main.rt
    cp -p -- "$main" "$work/main.rt"
    echo more >>"$main"
    expect "an edited source, with no rt" 127 '' "$no_rt" without_rt ./seuss x
    cp -- "$work/main.rt" "$main"
    expect "a source that is mended" 0 'released: <x>\nsource' '' without_rt ./seuss x
    echo Main >"$main"
    touch -r "$work/main.rt" -- "$main"
    expect "an edit that keeps the length and the time" 127 '' "$no_rt" without_rt ./seuss x
    cp -- "$work/main.rt" "$main"
    echo more >"$house/crates/low/src/more.rt"
    expect "a source more" 127 '' "$no_rt" without_rt ./seuss x
    rm -- "$house/crates/low/src/more.rt"
    mv -- "$house/crates/low/src/lib.rt" "$house/crates/low/src/lid.rt"
    expect "a source of another name" 127 '' "$no_rt" without_rt ./seuss x
    mv -- "$house/crates/low/src/lid.rt" "$house/crates/low/src/lib.rt"
    mkdir -- "$house/crates/low/specs"
    echo more >"$house/crates/low/specs/Lib.antt"
    expect "specs more" 127 '' "$no_rt" without_rt ./seuss x
    rm -r -- "$house/crates/low/specs"
    mkdir -- "$house/crates/seuss/proofs/deep"
    expect "a folder more is no source" 0 'released: <x>\nsource' '' without_rt ./seuss x
    echo more >"$house/crates/seuss/proofs/deep/Answers.antt"
    expect "a proof more, in a folder" 127 '' "$no_rt" without_rt ./seuss x
    rm -r -- "$house/crates/seuss/proofs/deep"
    : >"$house/crates/low/src/.lib.rt.swp"
    ln -s nowhere "$house/crates/low/src/.#lib.rt"
    : >"$house/crates/low/src/lib.rt~"
    : >"$house/crates/low/src/4913"
    expect "an editor's scratch files are no sources" 0 'released: <x>\nsource' '' \
        without_rt ./seuss x
    expect "again, by the look alone" 0 'released: <x>\nsource' '' \
        with_tools "find cmp" ./seuss x
    rm -- "$house"/crates/low/src/{.lib.rt.swp,.#lib.rt,lib.rt~,4913}
    echo other >"$house/HANDLES"
    expect "other handles" 127 '' "$no_rt" without_rt ./seuss x
    echo handles >"$house/HANDLES"
    expect "all as it was" 0 'released: <x>\nsource' '' without_rt ./seuss x
}

# Where nothing can be put into out/, and where the released program doesn't fit.
check_places() {
    rm -r -- "$house/out"
    two_at_once "two at once" 'released: <x>\nsource' without_rt "$house/seuss" x
    rm -r -- "$house/out"
    : >"$house/out"
    expect "a clone that can't be written" 0 'released: <x>\nsource' '' without_rt ./seuss x
    rm -- "$house/out"
    echo '# more' >>"$house/dist/$target/seuss"
    expect "a released program that isn't the noted one" 127 '' "$no_rt" without_rt ./seuss x
    release "kit one"
    mv -- "$house/dist/$target" "$house/dist/other"
    expect "a released program for another machine" 127 '' "$no_rt" without_rt ./seuss x
    mv -- "$house/dist/other" "$house/dist/$target"
}

check_kits() {
    : >"$work/calls"
    expect "the kit of the released program" 0 'released: <x>\nsource' '' with_kit first ./seuss x
    expect "an rt of no known kit" 0 'released: <x>\nsource' '' with_kit unknown ./seuss x
    tell "no rt was called for it" cmp "$work/calls" /dev/null
    expect "another kit builds" 0 'second: <x>\nsource' "$building${progress}seuss: built\\n" \
        with_kit second ./seuss x
    echo 'run -- call ../../examples/echo.elf' >"$work/wanted-calls"
    tell "by one rt run" cmp "$work/wanted-calls" "$work/calls"
    expect "what it built runs again" 0 'second: <x>\nsource' '' with_kit second ./seuss x
    expect "with no rt, the one that was found with none" 0 'released: <x>\nsource' '' \
        without_rt ./seuss x
    expect "the first kit again" 0 'released: <x>\nsource' '' with_kit first ./seuss x
    tell "no more rt was called for it" cmp "$work/wanted-calls" "$work/calls"
    echo 'kit three' >"$kits/second/kit/KIT-ID"
    expect "a kit that was changed builds" 0 'second: <x>\nsource' \
        "$building${progress}seuss: built\\n" with_kit second ./seuss x
}

# Builds of an edited source, which end well or badly.
check_builds() {
    local main=$house/crates/seuss/src/main.rt status failed
    echo edited >"$main"
    for status in 1 7 127; do
        make_kit failing "kit four" <<<"echo 'rt: chose'; echo wrong >&2; exit $status"
        failed="${building}rt: chose\\nwrong\\n"
        failed+="seuss: the build failed: rt ended with status $status\\n"
        expect "a build with status $status" 125 '' "$failed" with_kit failing ./seuss x
    done
    make_kit failing "kit four" <<<"exit 0"
    rm -rf -- "$house/crates/seuss/out"
    expect "a build that leaves no program" 125 '' "$building$nothing_left" \
        with_kit failing ./seuss x
    make_builder editing "kit four"
    echo "echo meanwhile >>src/main.rt" >>"$kits/editing/kit/bin/rt"
    expect "a source that is edited meanwhile" 125 '' "$building$progress$nothing_left" \
        with_kit editing ./seuss x
    echo edited >"$main"
    two_at_once "two builds at once" 'first: <x>\nsource' with_kit first "$house/seuss" x
    expect "what they built" 0 'first: <x>\nsource' '' without_rt ./seuss x
}

# took NAME COMMAND..: notes in least the time in microseconds of a run, where it is the least yet.
took() {
    local name=$1 start time
    shift
    start=${EPOCHREALTIME/./}
    "$@" </dev/null >/dev/null
    time=$((${EPOCHREALTIME/./} - start))
    [ -n "${least[$name]-}" ] && [ "${least[$name]}" -le "$time" ] || least[$name]=$time
}

# The paths that the launcher looks at, one by one by stat, in C.
make_stats() {
    cat >"$work/stats.c" <<'END'
#include <stdio.h>
#include <sys/stat.h>

int main(int count, char **words) {
    char path[4096];
    struct stat found;
    FILE *paths = fopen(words[count - 1], "r");
    unsigned long seen = 0;
    for (int at = 0, letter; (letter = getc(paths)) != EOF;) {
        path[at] = (char)letter;
        at = letter == 0 ? 0 : at + 1;
        if (at == 0 && stat(path, &found) == 0)
            seen += found.st_ino + (unsigned long)found.st_size;
    }
    return seen == 0;
}
END
    cc -O2 -o "$work/stats" "$work/stats.c"
}

# What the launcher takes more than the program and one look at each source. The goal is 4 ms, which
# depends on the machine; twice that is a fault on any.
is_cheap() {
    local program paths turn
    local -A least=()
    program=$(with_kit first sh scripts/program_path.sh) && paths=$(<out/stamp.kit) || return
    for ((turn = 0; turn < 100; turn++)); do
        took program "$program" x
        took look "$work/stats" "out/$paths/paths"
        took launcher with_kit first ./seuss x
    done
    echo "  the program ${least[program]} us, one look ${least[look]} us, all with the launcher" \
        "${least[launcher]} us: $((least[launcher] - least[program] - least[look])) us besides"
    [ "$((least[launcher] - least[program]))" -le "$((least[look] + 8000))" ]
}

# Whether no one else takes more than half of the processors.
is_quiet() {
    local load
    read -r load _ </proc/loadavg && [ "${load%.*}" -lt "$(($(nproc) / 2))" ] && return
    skip "what the launcher costs, since the machine is busy"
    return 1
}

# What it costs in a tree with 1,400 sources in 700 folders.
check_cost() {
    local at folder
    if ! has cc "what the launcher costs" || ! is_quiet; then return 0; fi
    make_stats || return
    for ((at = 0; at < 700; at++)); do
        folder=$house/crates/low/proofs/part$((at / 20))/function$at
        mkdir -p -- "$folder" && echo "$at" >"$folder/Answers.antt" &&
            echo "$at" >"$folder/Invariants.antt" || return
    done
    release "kit one"
    cd -- "$house" || return
    tell "what the launcher costs" is_cheap
    cd -- "$top" || return
}

clone() {
    rm -rf -- "$work/clone"
    git clone -q -- "$top" "$work/clone" || return
    folder=$work/clone
}

# The first commands in fresh clones, from the released program.
check_first_commands() {
    local echo_elf=examples/echo.elf words errors_by=first_line
    source_of '\001\002' 1
    expect "the first command in a fresh clone, with no rt" 0 'halt:0 12 0102 -\n' '' \
        without_rt ./seuss call "$echo_elf"
    expect "no source" 4 '' 'seuss: read fault\n' without_source without_rt ./seuss call "$echo_elf"
    expect "no output" 5 '' 'seuss: write fault\n' \
        without_output without_rt ./seuss call "$echo_elf"
    expect "no streams" 1 '' '' without_streams without_errors without_rt ./seuss
    for words in "" "call" "call $echo_elf x"; do
        # shellcheck disable=SC2086 # (each is several words)
        expect "the words '$words'" 1 '' 'seuss: words\n' without_rt ./seuss $words
    done
    expect "a word that isn't UTF-8" 1 '' 'seuss: words\n' without_rt ./seuss call $'\xff'
    clone || return
    two_at_once "the first two commands at once in a fresh clone" 'halt:0 12 0102 -\n' \
        without_rt "$folder/seuss" call "$folder/$echo_elf"
}

# Whether an edited source is built by the kit, with nothing said but how far it is.
builds_by_kit() {
    "$folder/seuss" call "$folder/examples/echo.elf" \
        <"$work/source" >"$work/output" 2>"$work/errors" &&
        printf 'halt:0 12 0102 -\n' | cmp - "$work/output" &&
        [ "$(tail -n 1 "$work/errors")" = "seuss: built" ] &&
        ! grep -v '^rt: \|^so far: \|^seuss: ' "$work/errors" && return
    tail -n 20 "$work/errors" | cut -c1-300
    return 1
}

# A build by the kit itself takes seconds where this tree has the libraries of one, since
# the clone begins with those, and else minutes.
check_real_build() {
    local crate start=$SECONDS
    has rt "a build by the kit" || return 0
    for crate in "$top"/crates/*/src/lib.rt; do
        [ -f "${crate%/src/lib.rt}/out/rlib/stamp" ] && continue
        skip "a build by the kit, which takes minutes, as rt run left no libraries in crates/*/out"
        return
    done
    clone || return
    echo '// A line more.' >>"$folder/crates/seuss/src/main.rt"
    tell "an edited source is built by the kit" builds_by_kit
    echo "  in $((SECONDS - start)) seconds"
    expect "what the kit built" 0 'halt:0 12 0102 -\n' '' without_rt ./seuss call examples/echo.elf
}

# Whether the clone's released program is of its sources.
is_released() {
    local digest
    digest=$(sh "$folder/scripts/source_digest.sh") &&
        grep -qsx "sources $digest" "$folder/dist/$target/built-from"
}

check_clones() {
    has git "the launcher in a fresh clone" || return 0
    clone || return
    [ -z "$(git -C "$top" status --porcelain)" ] ||
        echo "note: a clone has what is committed, without the changes in this tree"
    if is_released; then
        check_first_commands
    else
        skip "the first commands in a fresh clone, as its released program is of other sources"
    fi
    check_real_build
}

make_house || exit 1
folder=$house
printf source >"$work/source"
check_release
check_sources
check_places
check_kits
check_builds
check_cost
check_clones
