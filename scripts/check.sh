#!/bin/bash
# Checks of what no proof says: check.sh [NAME..] runs the files scripts/checks/NAME.sh,
# or all of them. What a check needs and isn't there is skipped with a message. Status 1
# where one failed.
set -u

top=$(CDPATH='' cd -- "$(dirname -- "${BASH_SOURCE[0]}")/.." && pwd -P) || exit 1
CHECK_RESULTS=$(mktemp) || exit 1
export CHECK_RESULTS
trap 'rm -f -- "$CHECK_RESULTS"' EXIT

count() {
    grep -c "^$1\$" "$CHECK_RESULTS"
}

# Runs a check. One that ended badly and told of no failure has failed itself.
run() {
    local before status=0
    before=$(count failed)
    echo "== $1"
    bash "$top/scripts/checks/$1.sh" </dev/null || status=$?
    [ "$status" -ne 0 ] && [ "$(count failed)" -eq "$before" ] || return 0
    echo "FAILED: the check $1 ended with status $status"
    echo failed >>"$CHECK_RESULTS"
}

if [ $# -eq 0 ]; then
    for file in "$top"/scripts/checks/*.sh; do
        file=${file##*/}
        set -- "$@" "${file%.sh}"
    done
fi
for name in "$@"; do
    [ -f "$top/scripts/checks/$name.sh" ] && continue
    echo "check.sh: there is no check $name in scripts/checks" >&2
    exit 2
done
for name in "$@"; do run "$name"; done
failed=$(count failed)
echo "own checks: $(count passed) passed, $failed failed"
[ "$failed" -eq 0 ]
