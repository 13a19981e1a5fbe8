#!/bin/bash
# The repository's own rules on its files.
# shellcheck source=scripts/check_lib.sh
. "$(dirname -- "${BASH_SOURCE[0]}")/../check_lib.sh"
cd -- "$top" || exit 1

# The most characters that a line may have.
most=100

sound_scripts() {
    shellcheck --external-sources seuss .ci/run scripts/*.sh scripts/checks/*.sh
}

same_handles() {
    printf 'Handles allowed: Threads, Wait, Net.\n' | diff - HANDLES
}

# Whether sources and specs stand only where a check reads them.
no_stray_files() {
    local strays
    strays=$(find . \( -path ./.git -o -path './crates/*/out' \) -prune -o -type f \
        \( -name '*.rt' -o -name '*.antt' \) -print |
        grep -Ev '^\./crates/[^/]+/(src/.*\.rt|(specs|proofs)/.*\.antt)$')
    [ -z "$strays" ] || echo "$strays"
    [ -z "$strays" ]
}

# The files that hold to it. Proofs that don't yet are in scripts/long_lines.txt.
lined_files() {
    find seuss .ci scripts crates \( -path 'crates/*/out' -o -path 'crates/*/proofs' \) -prune \
        -o -type f \
        \( -name '*.rt' -o -name '*.antt' -o -name '*.sh' -o -path seuss -o -path .ci/run \) -print0
}

# Prints each file with a line of more than $most characters, how many, and the first. Of
# a character in UTF-8 only the first byte counts. A table of tests that a script makes,
# which its first lines say, is left out: its rows are as long as other tools make them.
long_lines() {
    # shellcheck disable=SC2016 # (it is a program for awk)
    lined_files | LC_ALL=C sort -z | LC_ALL=C xargs -0 awk -v most="$most" '
        FNR == 1 { is_table = 0; files[++count] = FILENAME }
        FNR <= 3 && /scripts\// && FILENAME ~ /^crates\/[^\/]+\/src\/tests\// { is_table = 1 }
        is_table { next }
        { gsub(/[\200-\277]/, "") }
        length($0) > most && !lines[FILENAME]++ { first[FILENAME] = FNR }
        END {
            for (at = 1; at <= count; at++) {
                name = files[at]
                if (lines[name]) printf "%s: %d, first line %d\n", name, lines[name], first[name]
            }
        }'
}

no_long_lines() {
    local long
    long=$(long_lines)
    [ -n "$long" ] || return 0
    echo "  lines of more than $most characters:"
    echo "$long"
    return 1
}

tell_with shellcheck "the scripts" sound_scripts
tell "the handles" same_handles
tell "no source or spec outside the crates" no_stray_files
tell "no line of more than $most characters" no_long_lines
tell "no proof with more such lines than it had" bash scripts/long_lines.sh --check
