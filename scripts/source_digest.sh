#!/bin/sh
# Prints the SHA-256 that names the sources of the program: of the sorted lines of
# sha256sum for crates.txt, HANDLES and every file *.rt and *.antt below crates/*/src,
# crates/*/specs and crates/*/proofs whose name begins with no dot.
#
# crates/seuss/src/version.rt has it for the program to tell, so that file counts with zeros in
# its place. Where it has another one, that one names the sources too. With the word --own the
# digest is printed that the file is to have.
set -eu
export LC_ALL=C

CDPATH='' cd -- "$(dirname -- "$0")/.."
version=crates/seuss/src/version.rt

sum() {
    digest=$(sha256sum)
    echo "${digest%% *}"
}

# The lines of all but the version's file, and that one's.
lines() {
    find -L crates.txt HANDLES crates/*/src crates/*/specs crates/*/proofs -type f \
        \( -name crates.txt -o -name HANDLES -o -name '[!.]*.rt' -o -name '[!.]*.antt' \) \
        ! -path "$version" -exec sha256sum {} + || return
    [ ! -f "$version" ] || sed "s/[0-9a-f]\{64\}/$(printf '%064d' 0)/" -- "$version" | sum
}

# What the version's file has for the program to tell.
told() {
    sed -n 's/.*"\([0-9a-f]\{64\}\)".*/\1/p' -- "$version"
}

all=$(lines)
own=$(printf '%s\n' "$all" | sort | sum)
if [ ! -f "$version" ] || [ "${1-}" = --own ] || [ "$(told)" = "$own" ]; then
    echo "$own"
else
    { echo "$own" && sha256sum <"$version"; } | sum
fi
