#!/bin/bash
# The released program, dist/TARGET/seuss, and the note of what it was built from.
#
#   release.sh           prints the note that the gate's build is to have
#   release.sh --check   compares dist/TARGET with the tree and with the gate's build; status 1
#                        where they differ
#   release.sh --write   makes dist/TARGET of the gate's build
#   release.sh --built   prints the path of the gate's build
#
# That build is crates/seuss/out/seuss as rt ci or rt run left it: the same sources and kit
# give the same bytes, in whichever folder. Where it isn't whole and current, all but
# --check end with status 1.
set -u

CDPATH='' cd -- "$(dirname -- "${BASH_SOURCE[0]}")/.." || exit 1
target=$(uname -m)-$(uname -s | tr '[:upper:]' '[:lower:]')
release=dist/$target
built=crates/seuss/out/seuss
remedy='to make it anew, run scripts/version.sh --write, rt ci and scripts/release.sh --write'

say() {
    printf 'release.sh: %s\n' "$*" >&2
}

sum_of() {
    sha256sum <"$1" | cut -d ' ' -f 1
}

# none_since FILE: whether no source was changed after the file was written.
none_since() {
    local newer
    newer=$(find -L crates.txt HANDLES crates/*/src crates/*/specs crates/*/proofs \
        -cnewer "$1" -print -quit) && [ -z "$newer" ]
}

# rt run leaves a stamp, unless a source changed during the build. It ends with the sum of
# the program.
is_by_run() {
    [ -f "$built.stamp" ] && [[ $(<"$built.stamp") == *"$(sum_of "$built")" ]] &&
        none_since "$built.stamp"
}

# rt ci leaves no stamp. It opens its lock and sets out/ aside as it begins, and ends with
# a run of the program, whose output it leaves.
is_by_ci() {
    local lock=.git/rt-ci.lock wrote=crates/seuss/out/stdout
    [ -d .git ] || lock=$(git rev-parse --git-dir 2>/dev/null)/rt-ci.lock
    [ -f "$lock" ] && none_since "$lock" && [ "$wrote" -nt "$built" ] &&
        cmp -s "$wrote" crates/seuss/stdout
}

is_built() {
    [ -x "$built" ] && { is_by_run || is_by_ci; }
}

# The note of a program of these sources that the kit on the PATH built.
note() {
    local sources kit
    sources=$(scripts/source_digest.sh) || return
    kit=$(rt version) || return
    printf 'sources %s\nkit %s\nprogram %s\n' "$sources" "$kit" "$(sum_of "$1")"
}

# said WORD: what the released program's note says of it.
said() {
    sed -n "s/^$1 //p" "$release/built-from"
}

# holds WORD VALUE WHAT: whether the note says of the word this value, which is that of WHAT.
holds() {
    [ "$(said "$1")" = "$2" ] && return
    say "$release/built-from hasn't the line '$1 $2' of $3"
    return 1
}

check() {
    local status=0
    if ! [ -x "$release/seuss" ] || ! [ -f "$release/built-from" ]; then
        say "there is no released program for $target; $remedy"
        return 1
    fi
    holds sources "$(scripts/source_digest.sh)" "this tree" || status=1
    holds program "$(sum_of "$release/seuss")" "the program beside it" || status=1
    if command -v rt >/dev/null 2>&1; then
        holds kit "$(rt version)" "the kit on the PATH" || status=1
    else
        echo "skipped: the kit of the released program, since there is no rt"
    fi
    require_version || status=1
    if ! is_built; then
        echo "skipped: the gate's build, since $built isn't there, whole and current"
    elif ! cmp "$release/seuss" "$built" >&2; then
        say "the released program isn't the gate's build"
        status=1
    fi
    [ "$status" -eq 0 ] || say "$remedy"
    return "$status"
}

# put FILE MODE: makes the file of standard input, in one step.
put() {
    local new
    new=$(mktemp "$1.XXXXXX") && cat >"$new" && chmod "$2" "$new" && mv -f "$new" "$1"
}

write() {
    local text
    require_version && require_build && text=$(note "$built") && mkdir -p "$release" &&
        put "$release/seuss" 755 <"$built" && put "$release/built-from" 644 <<<"$text" &&
        echo "made $release of $built"
}

require_build() {
    is_built && return
    say "$built isn't there, whole and current: run rt ci"
    return 1
}

require_version() {
    scripts/version.sh --check >/dev/null && return
    say "the program tells the digest of other sources: run scripts/version.sh --write, and rt ci"
    return 1
}

case ${1-} in
"") require_build && note "$built" ;;
--check) check ;;
--write) write ;;
--built) require_build && echo "$PWD/$built" ;;
*)
    say "its words are --check, --write or --built, or none"
    exit 2
    ;;
esac
