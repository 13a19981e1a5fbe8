#!/bin/bash
# The must-fail edits of the crates.
#
#   edits.sh           prints a line CRATE: CALL_AND_WRONG_THING for each
#   edits.sh --check   says which crates have more than they may; status 1 where one does
set -u

CDPATH='' cd -- "$(dirname -- "${BASH_SOURCE[0]}")/.." || exit 1

# Each costs a check of its crate whenever that changes, so the few that tell most stay.
most=5

# Crates that may have more, one a line: CRATE NUMBER REASON. rt takes a file in must-fail/
# that is no edit for a bad one, so they stand here.
exceptions() {
    cat <<'END'
book_core 6 each of six wrong books is asked to be refused by its call
seuss_top 7 run_plain that always answers one status, 1 to 6, is refused status by status
END
}

# Prints how many edits the crate may have.
allowed() {
    local crate number
    while read -r crate number _; do
        [ "$crate" = "$1" ] || continue
        echo "$number"
        return
    done < <(exceptions)
    echo "$most"
}

list() {
    local edit crate
    for edit in crates/*/must-fail/*.edit; do
        [ -f "$edit" ] || continue
        crate=${edit#crates/}
        edit=${edit##*/}
        echo "${crate%%/*}: ${edit%.edit}"
    done
}

check() {
    local crate number limit status=0
    while read -r number crate; do
        limit=$(allowed "$crate")
        [ "$number" -le "$limit" ] && continue
        echo "$crate has $number must-fail edits, and at most $limit are wanted"
        status=1
    done < <(list | cut -d : -f 1 | sort | uniq -c)
    return "$status"
}

case ${1-} in
"") list ;;
--check) check ;;
*)
    echo "edits.sh: its word is --check, or none" >&2
    exit 2
    ;;
esac
