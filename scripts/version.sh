#!/bin/bash
# The digest of the sources in crates/seuss/src/version.rt, which the program tells.
#
#   version.sh           prints the file as it is to be
#   version.sh --check   compares it with the one that stands there; status 1 where they differ
#   version.sh --write   makes it so
set -u

CDPATH='' cd -- "$(dirname -- "${BASH_SOURCE[0]}")/.." || exit 1
file=crates/seuss/src/version.rt

text() {
    local own
    own=$(scripts/source_digest.sh --own) && sed "s/[0-9a-f]\{64\}/$own/" "$file"
}

# Writes the file in one step, where it changes.
write() {
    local new
    new=$(mktemp) && text >"$new" || return
    cmp -s "$new" "$file" || cat "$new" >"$file"
    rm -f "$new"
}

case ${1-} in
"") text ;;
--check) text | diff "$file" - ;;
--write) write ;;
*)
    echo "version.sh: its words are --check or --write, or none" >&2
    exit 2
    ;;
esac
