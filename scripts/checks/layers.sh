#!/bin/bash
# Whether the examples with layers are whole: what is expected of each request is what the judge
# beside the program says, each trigger of a plan is its program's, each stored program is what
# guest/seuss-cc makes of its text, and crates/example_tests runs on copies of them and is to
# print what is expected of each, once for each of its two ways to answer.
# shellcheck source=scripts/check_lib.sh
. "$(dirname -- "${BASH_SOURCE[0]}")/../check_lib.sh"

cross=riscv64-unknown-elf

same_expected() {
    python3 "$1/judge.py" | diff "$1/expected.txt" -
}

same_triggers() {
    local trigger at
    trigger=$("$top/guest/trigger" "$1/${1##*/}.elf") || return
    grep -q '^trigger = ' "$1/plan.toml" || return
    while read -r at; do
        [ "$at" = "$trigger" ] && continue
        echo "  the plan has $at, and the program $trigger"
        return 1
    done < <(sed -n 's/^trigger = //p' "$1/plan.toml")
}

same_program() {
    local name=${1##*/}
    "$top/guest/seuss-cc" -Wl,-S -Werror -o "$work/$name.elf" "$1/$name.c" >/dev/null &&
        cmp "$1/$name.elf" "$work/$name.elf"
}

tests=$top/crates/example_tests

same_copies() {
    local name=${1##*/}
    cmp "$1/$name.elf" "$tests/data/$name.elf" &&
        diff "$1/plan.toml" "$tests/data/$name.toml" &&
        diff "$1/requests.txt" "$tests/data/$name.txt"
}

# The examples in the order in which the program answers them.
answered() {
    sed -n 's/^const EXAMPLES: .*= \[\(.*\)\];$/\1/p' "$tests/src/main.rt" | tr -d '",'
}

same_output() {
    local name
    for name in $(answered); do
        cat "$top/examples/$name/expected.txt" "$top/examples/$name/expected.txt" || return
    done | diff "$tests/stdout" -
}

for plan in "$top"/examples/*/plan.toml; do
    folder=${plan%/*} name=$(basename "${plan%/*}")
    tell_with python3 "what is expected of $name" same_expected "$folder"
    tell_with "$cross-nm" "the triggers of $name" same_triggers "$folder"
    tell_with "$cross-gcc" "the program of $name" same_program "$folder"
    tell "the copies of $name" same_copies "$folder"
done
tell "what is printed of all" same_output
