#!/bin/bash
# The lines of proofs that have more than 100 characters. No more are to come: a list,
# scripts/long_lines.txt, has how many each file may still have, and only shrinks.
#
#   long_lines.sh           prints lines COUNT FILE, as the list has them
#   long_lines.sh --check   compares them with the list; status 1 where a file has more
#   long_lines.sh --write   takes out of the list what is gone, and raises no count
set -u

CDPATH='' cd -- "$(dirname -- "${BASH_SOURCE[0]}")/.." || exit 1
list=scripts/long_lines.txt
most=100

# Of a character in UTF-8 only the first byte counts.
found() {
    # shellcheck disable=SC2016 # (it is a program for awk)
    find crates -path 'crates/*/proofs/*' -name '*.antt' ! -path 'crates/*/out/*' -print0 |
        LC_ALL=C sort -z | LC_ALL=C xargs -0 awk -v most="$most" '
        FNR == 1 { files[++count] = FILENAME }
        { gsub(/[\200-\277]/, "") }
        length($0) > most { lines[FILENAME]++ }
        END {
            for (at = 1; at <= count; at++)
                if (lines[files[at]]) print lines[files[at]], files[at]
        }'
}

# Prints lines COUNT ALLOWED FILE, of each file that has long lines or may have them.
compared() {
    found | awk '
        FILENAME == "-" { count[$2] = $1; next }
        { allowed[$2] = $1 }
        END {
            for (name in count) print count[name], allowed[name] + 0, name
            for (name in allowed) if (!(name in count)) print 0, allowed[name], name
        }' - "$list" | LC_ALL=C sort -k 3
}

check() {
    local more
    more=$(compared | awk '$1 > $2 { print $3 ": " $1 ", and " $2 " may be" }')
    [ -n "$more" ] || return 0
    echo "  lines of more than $most characters:"
    echo "$more"
    return 1
}

write() {
    local text
    text=$(compared | awk '{ if ($1 > $2) $1 = $2 } $1 > 0 { print $1, $3 }') &&
        echo "$text" >"$list"
}

case ${1-} in
"") found ;;
--check) check ;;
--write) write ;;
*)
    echo "long_lines.sh: its words are --check or --write, or none" >&2
    exit 2
    ;;
esac
