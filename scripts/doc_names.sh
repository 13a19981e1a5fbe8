#!/bin/bash
# The names that the documents put between backticks, and where their links lead: prints a line
# FILE:LINE: NAME for each that isn't there. Status 1 where one isn't. doc_names.sh --all prints
# each with what it is taken for.
#
# What is between backticks is looked up as the first of these that it is:
#   path    no blank and a slash inside: a file or folder at the top, beside the document, or in
#           a crate. A part in capitals, as TARGET or NAME, stands for any. Of a command whose
#           first word is a path, that word
#   file    a name with one of the endings of ending: a file anywhere
#   name    words joined by '::' or '.', also with '!' or a call's '(..)' behind: each word
#           stands somewhere in what the crates, scripts, guest, examples or bench hold. Behind
#           the name of a crate, it stands in that crate. A crate is a line of crates.txt
# All else is left out: commands with words, lines of output, formulas, numbers, options,
# attributes, words in capitals alone, which are placeholders or the standards' own, and NAME_..
set -u
export LC_ALL=C

CDPATH='' cd -- "$(dirname -- "${BASH_SOURCE[0]}")/.." || exit 1
work=$(mktemp -d) || exit 1
trap 'rm -rf -- "$work"' EXIT

ending='antt|rt|sh|md|txt|edit|toml|elf|awk|ld|c|h|s|S'

# What stands nowhere and is right, lines REASON: NAME..
exceptions() {
    cat <<'END'
packages of Debian: gcc-riscv64-unknown-elf picolibc-riscv64-unknown-elf
fields of ELF that nothing reads: e_flags p_paddr p_align
of C and its compilers: malloc float double __builtin_trap
of Rust's: rustup riscv64imac-unknown-none-elf
made by who reads: reverse.c upper.c out/ out/look.*
of the kit, and not used since it gets no proof: retain position IntoIter
END
}

documents() {
    ls README.md CONTRIBUTING.md docs/*.md {scripts,guest,examples,bench}/README.md \
        crates/*/README.md
}

# Prints lines FILE:LINE, a tab, WHAT, for all that stands between backticks, outside blocks of
# code, and '](TARGET' for each link to a file.
quoted() {
    # shellcheck disable=SC2016 # (it is a program for awk)
    documents | xargs awk '
        function put(line, text) { printf "%s:%d\t%s\n", file, line, text }
        # A paragraph, so that what is quoted may go over the end of a line.
        function flush(parts, count, at, line) {
            count = split(paragraph, parts, "`")
            line = start
            for (at = 1; at <= count; at++) {
                if (at % 2) links(line, parts[at])
                else {
                    text = parts[at]
                    gsub(/\n */, " ", text)
                    put(line, text)
                }
                line += gsub(/\n/, "\n", parts[at])
            }
            paragraph = ""
        }
        function links(line, text, target) {
            while (match(text, /\]\([^)#]+/)) {
                target = substr(text, RSTART, RLENGTH)
                text = substr(text, RSTART + RLENGTH)
                if (target !~ /^\]\(https?:/) put(line, target)
            }
        }
        FNR == 1 { flush(); is_code = 0 }
        /^ *```/ { flush(); is_code = !is_code; next }
        is_code { next }
        /^ *$/ { flush(); next }
        paragraph == "" { file = FILENAME; start = FNR }
        { paragraph = paragraph $0 "\n" }
        END { flush() }'
}

# Prints lines FILE:LINE, KIND, NAME of what is quoted, with tabs between, for each that can be
# looked up.
kinds() {
    quoted | awk -F '\t' -v ending="$ending" '
        function put(kind, name) { print $1 "\t" kind "\t" name }
        { text = $2 }
        sub(/^\]\(/, "", text) { put("link", text); next }
        text ~ /^[.]?[A-Za-z0-9_*.-]+\/[A-Za-z0-9_\/*.+-]*( |$)/ {
            sub(/ .*/, "", text)
            put("path", text)
            next
        }
        text ~ ("^[A-Za-z0-9_-]+[.](" ending ")$") { put("file", text); next }
        text ~ /^[A-Z0-9_.]+$/ || text ~ /^NAME_|_NAME$/ { next }
        text ~ /^[A-Za-z_][A-Za-z0-9_-]*((::|[.])[A-Za-z_][A-Za-z0-9_-]*)*(!|\(.*\))?$/ {
            sub(/(!|\(.*)$/, "", text)
            gsub(/::|[.]/, " ", text)
            put("name", text)
        }' | sed -E 's/(\tname\t.*) [A-Z_]+$/\1/'
}

# Prints the words of the crates' code and of what is beside them, and of the files' names, a
# word a line.
words_there() {
    {
        files_there \( -name '*.rt' -o -name '*.antt' \) -print0 |
            xargs -0 sed -E 's:(^| )(//|--)([ /!]|$).*::'
        files_there ! -name '*.rt' ! -name '*.antt' ! -name '*.md' ! -name '*.elf' \
            ! -path scripts/doc_names.sh -print0 | xargs -0 cat
        files_there -printf '%f\n'
        crates
    } | grep -oaE '[A-Za-z_][A-Za-z0-9_-]*' | awk '
        !seen[$0]++ {
            print
            if (split($0, parts, "-") > 1) for (at in parts) print parts[at]
        }'
}

# files_there TEST..: the files that may have a name and pass the tests of find.
files_there() {
    find crates scripts guest examples bench seuss .ci -path 'crates/*/out' -prune -o \
        -type f "$@"
}

crates() {
    awk '{ sub(/#.*/, ""); sub(/[ :].*/, "") } $0 != ""' crates.txt
}

# is_path WHERE PATH: whether the path is there, in which a word in capitals stands for any: as
# it is, in the document's folder, or in a crate, where the document is none's.
is_path() {
    local path place places
    path=$(sed -E 's/(^|[^A-Za-z])[A-Z][A-Z_]+/\1*/g' <<<"${2%/}")
    places=("$path" "${1%/*}/$path")
    [[ $1 == crates/* ]] || places+=("crates/*/$path")
    for place in "${places[@]}"; do
        compgen -G "$place" >/dev/null && return
    done
    return 1
}

# is_link WHERE PATH: whether the path is there from the document's folder.
is_link() {
    local folder=.
    [[ $1 != */* ]] || folder=${1%/*}
    [ -e "$folder/$2" ]
}

is_file() {
    [ -n "$(find . \( -path ./.git -o -path '*/out' \) -prune -o -name "$1" -print -quit)" ]
}

# is_in CRATE WORD..: whether each word stands in the crate.
is_in() {
    local crate=$1 word
    shift
    for word in "$@"; do
        grep -rqwF --include='*.rt' --include='*.antt' -- "$word" "crates/$crate/src" \
            "crates/$crate/specs" 2>/dev/null || return
    done
}

# Prints, of lines of kinds(), each word of a name that stands nowhere, as such a line.
unknown_names() {
    words_there >"$work/words"
    awk -F '\t' '
        FILENAME != "-" { stands[$0] = 1; next }
        $2 == "name" {
            count = split($3, words, " ")
            for (at = 1; at <= count; at++)
                if (!(words[at] in stands)) print $1 "\t" $2 "\t" words[at]
        }' "$work/words" -
}

# Prints the lines of kinds() that aren't there.
missing() {
    local where kind name words
    kinds >"$work/kinds"
    unknown_names <"$work/kinds"
    while IFS=$'\t' read -r where kind name; do
        case $kind in
        path) is_path "$where" "$name" ;;
        link) is_link "$where" "$name" ;;
        file) is_file "$name" ;;
        name)
            read -ra words <<<"$name"
            ! [ -d "crates/${words[0]}" ] || is_in "${words[@]}"
            ;;
        esac || printf '%s\t%s\t%s\n' "$where" "$kind" "$name"
    done <"$work/kinds"
}

# Prints what is missing and no exception, and the exceptions that no document quotes.
check() {
    local found
    exceptions | sed 's/^[^:]*: //' | tr ' ' '\n' >"$work/exceptions"
    found=$(missing | awk -F '\t' -v exceptions="$work/exceptions" -v all="$work/kinds" '
        BEGIN { while ((getline name <exceptions) > 0) is_exception[name] = 1 }
        !($3 in is_exception) { print $1 ": " $3 }
        END {
            while ((getline <all) > 0) {
                count = split($3, words, " ")
                for (at = 1; at <= count; at++) is_quoted[words[at]] = 1
            }
            for (name in is_exception)
                if (!(name in is_quoted)) print "scripts/doc_names.sh, exceptions: " name
        }' | sort -u)
    [ -n "$found" ] || return 0
    echo "$found"
    return 1
}

case ${1-} in
"") check ;;
--all) kinds ;;
*)
    echo "doc_names.sh: its word is --all, or none" >&2
    exit 2
    ;;
esac
