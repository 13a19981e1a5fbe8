# shellcheck shell=bash
# What the files of scripts/checks/ share: each sources this, tells what it checked, and
# ends with status 1 where one failed. check.sh counts what was told.
set -u

top=$(CDPATH='' cd -- "$(dirname -- "${BASH_SOURCE[0]}")/.." && pwd -P) || exit 1
work=$(mktemp -d) || exit 1
told=${CHECK_RESULTS:-$work/told}
failures=0
trap finish EXIT

# Where expect runs its commands, what they read, and by what it looks at standard error.
folder=$top
errors_by='cat'
: >"$work/source"

finish() {
    local status=$?
    rm -rf -- "$work"
    [ "$status" -ne 0 ] || [ "$failures" -eq 0 ] || status=1
    exit "$status"
}

pass() {
    echo passed >>"$told"
    echo "ok: $1"
}

fail() {
    failures=$((failures + 1))
    echo failed >>"$told"
    echo "FAILED: $1"
}

skip() {
    echo "skipped: $1"
}

# has TOOL WHAT: whether there is the tool that WHAT needs. Else WHAT is skipped.
has() {
    command -v "$1" >/dev/null 2>&1 && return
    skip "$2, since there is no $1"
    return 1
}

# tell NAME COMMAND..: the check that the command ends with status 0.
tell() {
    local name=$1
    shift
    if "$@"; then pass "$name"; else fail "$name"; fi
}

# tell_with TOOL NAME COMMAND..: as tell, where there is the tool that the command needs.
tell_with() {
    if has "$1" "$2"; then tell "${@:2}"; fi
}

# source_of WORD COUNT: makes the source the word, COUNT times.
source_of() {
    local at
    for ((at = 0; at < $2; at++)); do printf '%b' "$1"; done >"$work/source"
}

# expect NAME STATUS OUTPUT ERRORS COMMAND..: the check that the command, run in $folder
# with $work/source as its source, ends with this status and writes exactly these bytes. Of
# standard error it looks at what $errors_by makes of it.
expect() {
    local name=$1 status=$2 got=0
    printf '%b' "$3" >"$work/wanted-output"
    printf '%b' "$4" >"$work/wanted-errors"
    shift 4
    : >"$work/output"
    (cd -- "$folder" && "$@") <"$work/source" >"$work/output" 2>"$work/errors" || got=$?
    "$errors_by" <"$work/errors" >"$work/looked-at" && mv -f -- "$work/looked-at" "$work/errors"
    if [ "$got" -eq "$status" ] && cmp -s "$work/wanted-output" "$work/output" &&
        cmp -s "$work/wanted-errors" "$work/errors"; then
        pass "$name"
        return
    fi
    fail "$name"
    echo "  status $got, and $status is wanted; output, and then errors (< wanted, > written):"
    diff -a "$work/wanted-output" "$work/output" | head -n 10 | cut -c1-200
    diff -a "$work/wanted-errors" "$work/errors" | head -n 10 | cut -c1-200
}

# The line of a refusal, without what is said to a person behind it.
first_line() { head -n 1; }

# transcript FILE [START [STOP]]: what stands in the file's blocks of lines `$ COMMAND`, with what
# each prints, from the heading START up to the heading STOP.
transcript() {
    awk -v start="${2-}" -v stop="${3:-none}" '
        BEGIN { on = start == "" }
        $0 == start { on = 1 }
        $0 == stop { exit }
        /^```/ { inside = !inside; shown = inside && $0 == "```"; next }
        on && shown' "$1"
}

# replay FOLDER: runs in the folder, in one shell, the commands of standard input, a transcript,
# and prints it as it is now. A line `> ..` goes on with the command above it.
replay() {
    local line shown='' command=''
    : >"$work/replayed"
    while IFS= read -r line; do
        case $line in
        '$ '*)
            replay_one
            command=${line#??} shown=$line
            ;;
        '> '*) command+=$'\n'${line#??} shown+=$'\n'$line ;;
        esac
    done
    replay_one
    (cd -- "$1" && bash "$work/replayed" </dev/null 2>&1)
}

# Adds the command to those that are run.
replay_one() {
    [ -z "$command" ] || printf 'printf "%%s\\n" %q\n%s\n' "$shown" "$command" >>"$work/replayed"
}

# same_transcript FOLDER FILTER: whether the commands of $work/transcript print in the folder
# what stands there, both through the filter.
same_transcript() {
    "$2" <"$work/transcript" >"$work/wanted"
    [ -s "$work/wanted" ] && replay "$1" <"$work/transcript" | "$2" | diff "$work/wanted" -
}

# find_program [PATH]: sets program to a copy of the program to check, the one of that path or
# the gate's build.
find_program() {
    local found=${1-} release
    release=$top/dist/$(uname -m)-$(uname -s | tr '[:upper:]' '[:lower:]')/seuss
    if [ -z "$found" ] && ! found=$(bash "$top/scripts/release.sh" --built 2>/dev/null); then
        bash "$top/scripts/release.sh" --check >/dev/null 2>&1 && found=$release
    fi
    if [ -z "$found" ]; then
        skip "the program, as neither a build nor the released one is of these sources: run rt ci"
        return 1
    fi
    program=$work/seuss
    cp -- "$found" "$program" && return
    fail "the program $found"
    return 1
}

# Ways to run the words on no streams.
without_source() { "$@" <&-; }
without_output() { "$@" >&-; }
without_errors() { "$@" 2>&-; }
without_streams() { "$@" <&- >&-; }

# two_at_once NAME OUTPUT COMMAND..: the check that two of the command, run at once, both end
# with status 0 and write exactly these bytes.
two_at_once() {
    local name=$1 one ids=() status=0
    printf '%b' "$2" >"$work/wanted-output"
    shift 2
    for one in one two; do
        "$@" <"$work/source" >"$work/output-$one" 2>"$work/errors-$one" &
        ids+=("$!")
    done
    for one in "${ids[@]}"; do wait "$one" || status=1; done
    if [ "$status" -eq 0 ] && cmp "$work/wanted-output" "$work/output-one" &&
        cmp "$work/wanted-output" "$work/output-two"; then
        pass "$name"
        return
    fi
    fail "$name"
    tail -n 20 "$work/errors-one" "$work/errors-two" | cut -c1-300
}
