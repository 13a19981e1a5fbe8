#!/bin/bash
# The tables of crates in docs/ARCHITECTURE.md and docs/PROOFS.md, made of crates.txt.
#
#   crate_tables.sh           prints both
#   crate_tables.sh --check   compares them with the documents', and crates.txt with what its
#                             head says; status 1 where they differ, or where a crate of the
#                             program isn't in the drawing of layers above the first table
#   crate_tables.sh --write   makes the documents' anew
#
# A table stands in its document between the lines of marks() below.
set -u

CDPATH='' cd -- "$(dirname -- "${BASH_SOURCE[0]}")/.." || exit 1
work=$(mktemp -d) || exit 1
trap 'rm -rf -- "$work"' EXIT

# The crate of the program: what it doesn't stand on, no command uses.
program=seuss

say() {
    printf 'crate_tables.sh: %s\n' "$*" >&2
}

# marks WHICH: sets first and last to the lines around the table in its document, and document
# to that.
marks() {
    case $1 in
    layers) document=docs/ARCHITECTURE.md ;;
    proofs) document=docs/PROOFS.md ;;
    esac
    first="<!-- scripts/crate_tables.sh makes these lines of crates.txt: $1 -->"
    last="<!-- end of $1 -->"
}

# Prints crates.txt as lines GROUP|NAME|WHAT IT HOLDS|WHAT IS PROVED|LIBRARIES.
rows() {
    awk '
        /^# == / { group = substr($0, 6) }
        /^# proved: / { proved = substr($0, 11); is_proved = 1; next }
        /^# / && !/^# == / {
            if (is_proved) proved = proved " " substr($0, 3)
            else holds = holds (holds == "" ? "" : " ") substr($0, 3)
            next
        }
        /^[^#].*:/ {
            line = $0
            sub(/ *#.*/, "", line)
            split(line, sides, ":")
            split(sides[1], words, " ")
            sub(/^ */, "", sides[2])
            print group "|" words[1] "|" holds "|" proved "|" sides[2]
        }
        { holds = proved = ""; is_proved = 0 }' crates.txt
}

# layers: the table of what each crate holds, and stands on. A library of the kit is none of
# the crates.
layers() {
    echo '| Crate | What it holds | Stands on |'
    echo '|---|---|---|'
    rows | awk -F '|' '
        { names[$2] = 1; all[NR] = $0 }
        function listed(libraries, count, words, at, own, kits) {
            count = split(libraries, words, " ")
            for (at = 1; at <= count; at++)
                if (words[at] in names) own = own (own == "" ? "" : ", ") "`" words[at] "`"
                else kits = kits (kits == "" ? "" : ", ") "`" words[at] "`"
            if (kits != "") kits = (own == "" ? "" : "; ") "of the kit " kits
            return (own kits == "" ? "" : " ") own kits
        }
        END {
            for (row = 1; row <= NR; row++) {
                split(all[row], parts, "|")
                if (parts[1] != group) print "| **" parts[1] "** | | |"
                group = parts[1]
                print "| `" parts[2] "` | " parts[3] " |" listed(parts[5]) " |"
            }
        }'
}

# proofs: the table of what is proved of each crate.
proofs() {
    echo '| Crate | Proved |'
    echo '|---|---|'
    rows | awk -F '|' '
        $4 != "nothing" { print "| [" $2 "](../crates/" $2 "/README.md) | " $4 " |"; next }
        { none = none (none == "" ? "" : ", ") "[" $2 "](../crates/" $2 "/README.md)" }
        END { print "| " none " | nothing |" }'
}

# Prints the words of what ARCHITECTURE.md draws, a line each.
drawn() {
    # shellcheck disable=SC2016 # (it is a program for sed)
    sed -n '/^```/,/^```/p' docs/ARCHITECTURE.md | grep -oE '[a-z0-9_]+'
}

# Prints what crates.txt lacks of what its head says, and what the drawing lacks.
faults() {
    drawn >"$work/drawn"
    rows | awk -F '|' -v program="$program" -v drawn="$work/drawn" '
        function mark(name, count, words, at) {
            if (!(name in below) || is_part[name]++) return
            count = split(below[name], words, " ")
            for (at = 1; at <= count; at++) mark(words[at])
        }
        { names[NR] = $2; group[$2] = $1; holds[$2] = $3; proved[$2] = $4; below[$2] = $5 }
        END {
            mark(program)
            while ((getline word <drawn) > 0) is_drawn[word] = 1
            for (at = 1; at <= NR; at++) {
                name = names[at]
                if (group[name] == "") print name " is in no group"
                if (holds[name] == "") print name ": no line above it says what it holds"
                if (proved[name] == "") print name ": no line above it begins with # proved:"
                used = group[name] !~ /no command uses them/
                if (used && !is_part[name])
                    print name ": no command uses it, and its group does not say so"
                if (!used && is_part[name]) print name ": its group says that no command uses it"
                if (is_part[name] && !(name in is_drawn))
                    print name ": the layers of docs/ARCHITECTURE.md do not show it"
            }
        }'
}

# made WHICH: prints the document with the table as it is to be; status 1 where it has no
# place for one.
made() {
    marks "$1"
    if ! grep -qxF -- "$first" "$document" || ! grep -qxF -- "$last" "$document"; then
        say "$document hasn't the lines '$first' and '$last'"
        return 1
    fi
    "$1" >"$work/table" || return
    awk -v first="$first" -v last="$last" -v table="$work/table" '
        $0 == last { is_inside = 0 }
        !is_inside { print }
        $0 == first {
            is_inside = 1
            while ((getline line <table) > 0) print line
        }' "$document"
}

# is_sound: whether crates.txt has all that the tables are made of.
is_sound() {
    local found
    found=$(faults)
    [ -n "$found" ] || return 0
    say "of crates.txt and the drawing:"
    echo "$found" >&2
    return 1
}

check() {
    local which status=0
    is_sound || status=1
    for which in layers proofs; do
        made "$which" >"$work/made" && diff -- "$document" "$work/made" || status=1
    done
    [ "$status" -eq 0 ] || say "to make them anew: scripts/crate_tables.sh --write"
    return "$status"
}

write() {
    local which
    is_sound || return
    for which in layers proofs; do
        made "$which" >"$work/made" || return
        marks "$which"
        cmp -s "$work/made" "$document" || cp -- "$work/made" "$document" || return
    done
}

case ${1-} in
"")
    layers
    echo
    proofs
    ;;
--check) check ;;
--write) write ;;
*)
    say "its words are --check or --write, or none"
    exit 2
    ;;
esac
