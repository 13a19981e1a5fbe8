#!/bin/sh
# What a C compiler gives for each operation of rv_base: crates/rv_base/src/tests/vectors.rt.
#
#   rv_base_vectors.sh           prints the file
#   rv_base_vectors.sh --check   compares it with the tree's; status 1 where they differ
#   rv_base_vectors.sh --write   makes the tree's anew
#
# It needs the C compiler $CC, or else cc.
set -eu

CDPATH='' cd -- "$(dirname -- "$0")/.."
made=crates/rv_base/src/tests/vectors.rt

work=$(mktemp -d)
trap 'rm -rf -- "$work"' EXIT

vectors() {
    "${CC:-cc}" -O1 -Wall -Wextra -o "$work/program" scripts/rv_base_vectors.c
    "$work/program"
}

vectors >"$work/vectors.rt"
case ${1-} in
"") cat -- "$work/vectors.rt" ;;
--check) diff -- "$made" "$work/vectors.rt" ;;
--write) cp -- "$work/vectors.rt" "$made" ;;
*)
    echo "rv_base_vectors.sh: its words are --check or --write, or none" >&2
    exit 2
    ;;
esac
