#!/bin/bash
# What each crate costs from nothing, in minutes of processor time: its proof, that of its
# tests, its must-fail edits, and their sum; last the sums of all, and what a crate costs on
# average. costs.sh [NAME..] measures the crates of these names and those below them, or all.
# RT_JOBS=N has N checks run side by side. Status 1 where rt ci failed, and 2 for a name that
# crates.txt hasn't.
#
# Nothing is reused. rt keeps what it proved in a folder beside its kit, and takes no other
# folder for it. So rt ci is run in a copy of the sources, with a crates.txt that has the
# crates to be measured alone, by a kit of its own: a folder of links to the kit, with a rattle
# that notes what each of its runs costs. What else the machine does lengthens a run, and its
# processor time by little.
set -u

top=$(CDPATH='' cd -- "$(dirname -- "${BASH_SOURCE[0]}")/.." && pwd -P) || exit 1
work=$(mktemp -d) || exit 1
running=
trap finish EXIT
trap 'exit 1' INT TERM HUP

# The minutes above which a crate is marked, and the average of all.
most=6
most_on_average=4

# Ends the rt ci that was started, if it still runs, with all that it runs.
finish() {
    if [ -n "$running" ]; then
        kill -TERM -- "-$running" 2>/dev/null
        wait "$running" 2>/dev/null
    fi
    rm -rf -- "$work"
}

say() {
    printf 'costs.sh: %s\n' "$*" >&2
}

# Sets kit to the folder of the kit on the PATH.
find_kit() {
    local rt
    rt=$(command -v rt) && kit=$(dirname -- "$(dirname -- "$(readlink -f -- "$rt")")") &&
        [ -f "$kit/KIT-ID" ] && return
    say "there is no rt of a kit on the PATH"
    return 1
}

# Makes the kit of links. Scripts are copied, since they look for the kit around themselves.
make_kit() {
    local file
    mkdir -- "$work/kit" "$work/kit/bin" "$work/notes" || return
    for file in "$kit"/*; do
        [ "${file##*/}" = bin ] || ln -s -- "$file" "$work/kit/" || return
    done
    for file in "$kit"/bin/*; do
        case ${file##*/} in
        rattle) ;;
        rt*) cp -- "$file" "$work/kit/bin/" || return ;;
        *) ln -s -- "$file" "$work/kit/bin/" || return ;;
        esac
    done
    make_rattle >"$work/kit/bin/rattle" && chmod +x "$work/kit/bin/rattle"
}

# Prints the rattle that notes CRATE KIND and its times. An edit is tried in a folder of
# its own, and what is of a crate's tests has a word for it.
make_rattle() {
    cat <<END
#!/bin/bash
real=$(printf %q "$kit/bin/rattle")
notes=$(printf %q "$work/notes")
END
    cat <<'END'
crate=${PWD##*/}
kind=proof
last=
for word in "$@"; do
    [ "$last" != --crate-name ] || crate=$word
    [ "$word" != --test ] || kind=tests
    last=$word
done
[[ ${PWD##*/} != rt-edit-* ]] || kind=edits
"$real" "$@"
status=$?
{
    echo "$crate $kind"
    times
} >"$notes/$$-$RANDOM$RANDOM"
# rt asks whether it was killed, for want of memory.
[ "$status" -ne 137 ] || kill -KILL "$$"
[ "$status" -eq 0 ]
END
}

# Sets crates to those of these names and those below them, or to all, lowest first.
find_crates() {
    local name
    for name in "$@"; do
        in_order | grep -qxF -- "$name" && continue
        say "crates.txt has no crate $name"
        return 2
    done
    mapfile -t crates < <(in_order "$@")
}

# Copies the sources of the crates, and what crates.txt says of them.
copy_sources() {
    mkdir -p -- "$work/tree/.git" && cp -- "$top/HANDLES" "$work/tree/" &&
        awk '
            FILENAME == "-" { is_asked[$1] = 1; next }
            { sub(/#.*/, "") }
            match($0, /^[^ :]+/) && substr($0, 1, RLENGTH) in is_asked' - "$top/crates.txt" \
            < <(printf '%s\n' "${crates[@]}") >"$work/tree/crates.txt" &&
        tar -C "$top" --exclude='crates/*/out' -c "${crates[@]/#/crates/}" |
        tar -C "$work/tree" -x
}

# in_order [NAME..]: prints the crates of crates.txt, each behind those that it stands on; the
# crates of these names and those below them, or all.
in_order() {
    awk -v asked="$*" '
        function put(name, parts, count, at) {
            if (!(name in below) || is_put[name]++) return
            count = split(below[name], parts, " ")
            for (at = 1; at <= count; at++) put(parts[at])
            print name
        }
        { sub(/#.*/, "") }
        /:/ {
            split($0, sides, ":")
            split(sides[1], words, " ")
            all = all " " words[1]
            below[words[1]] = sides[2]
        }
        END {
            count_of_all = split(asked == "" ? all : asked, names, " ")
            for (at = 1; at <= count_of_all; at++) put(names[at])
        }' "$top/crates.txt"
}

# Prints the table of what was noted. The last line of a note has the times of the run.
table() {
    printf '%s\n' "${crates[@]}" | awk -v most="$most" -v mean="$most_on_average" '
        function seconds(text, parts) {
            sub(/s$/, "", text)
            split(text, parts, "m")
            return 60 * parts[1] + parts[2]
        }
        function row(name, proof, tests, edits, mark) {
            printf "%-20s %8.2f %8.2f %8.2f %8.2f%s\n", name, proof, tests, edits, \
                proof + tests + edits, mark
        }
        FILENAME == "-" { order[++count] = $1; next }
        FNR == 1 { name = $1; kind = $2; known[name] = 1 }
        FNR == 3 { spent[name, kind] += (seconds($1) + seconds($2)) / 60 }
        END {
            printf "%-20s %8s %8s %8s %8s\n", "crate", "proof", "tests", "edits", "sum"
            for (at = 1; at <= count; at++) {
                name = order[at]
                if (!known[name]) continue
                proof = spent[name, "proof"]; tests = spent[name, "tests"]
                edits = spent[name, "edits"]
                row(name, proof, tests, edits, proof + tests + edits > most ? "  over " most : "")
                proofs += proof; all_tests += tests; all_edits += edits
                measured++
            }
            row("total of " measured + 0, proofs, all_tests, all_edits, "")
            if (!measured) exit
            sum = (proofs + all_tests + all_edits) / measured
            row("average", proofs / measured, all_tests / measured, all_edits / measured, \
                sum > mean ? "  over " mean : "")
        }' - "$work"/notes/*
}

# Runs rt ci to its end, in a group of its own so that it can be ended as a whole.
measure() {
    local status=0
    set -m
    (cd -- "$work/tree" && exec "$work/kit/bin/rt" ci) </dev/null >"$work/log" 2>&1 &
    running=$!
    set +m
    wait "$running" || status=1
    running=
    return "$status"
}

find_crates "$@" || exit
find_kit && make_kit && copy_sources || exit 1
status=0
measure || status=1
if [ "$status" -ne 0 ]; then
    tail -n 20 "$work/log" >&2
    say "rt ci failed, so what follows isn't all that it costs"
fi
table
[ "$status" -eq 0 ]
