#!/bin/bash
# Whether the examples answer what other tools, or people, make of the same packets: the stored
# images, and those that guest/seuss-cc makes of the same texts; and the kit for C itself. With a
# word it is the program of that path, and else the gate's build.
# shellcheck source=scripts/check_lib.sh
. "$(dirname -- "${BASH_SOURCE[0]}")/../check_lib.sh"

cross=riscv64-unknown-elf
kit=$top/guest
names="sum wordcount base64 sha256 json_field template"

hex() { od -An -v -tx1 | tr -d ' \n'; }

# without_steps: of reply lines, the end, the packets and the console.
without_steps() { sed 's/^\([^ ]*\) [0-9]* /\1 /'; }

# replies IMAGE END PACKETS: whether the image's run on $work/source ends so, with these packets
# as a reply line spells them, and an empty console.
replies() {
    "$program" call "$1" <"$work/source" | without_steps >"$work/line" || return
    echo "$2 $3 -" | cmp -s - "$work/line" && return
    echo "  on $(head -c 40 "$work/source" | hex): $(head -c 200 "$work/line"); and wanted is"
    echo "  $(echo "$2 $3 -" | head -c 200)"
    return 1
}

# answers IMAGE PACKET ANSWER..: whether the image answers each packet so, as escapes.
answers() {
    local image=$1 digits
    shift
    while [ $# -gt 0 ]; do
        printf '%b' "$1" >"$work/source"
        digits=$(printf '%b' "$2" | hex)
        replies "$image" ok "${digits:--}" || return
        shift 2
    done
}

# each_length COMMAND IMAGE FILE: whether the image answers what the command says of the file's
# first bytes, as packets, at lengths around those where something changes.
each_length() {
    local command=$1 image=$2 file=$3 length
    for length in 0 1 2 3 4 55 56 63 64 65 119 120 1000 24575 24576 24577 32767 32768; do
        head -c "$length" "$file" >"$work/source"
        replies "$image" ok "$("$command" <"$work/source")" || return
    done
}

# What other tools say, as PACKETS. That wc pads its numbers on some systems is undone.
by_wc() { LC_ALL=C wc -lwc | sed 's/^ *//; s/  */ /g' | hex; }
by_base64() {
    local digits
    digits=$(base64 | tr -d '\n' | hex)
    [ "${#digits}" -le 65536 ] || digits=${digits:0:65536}/${digits:65536}
    echo "${digits:--}"
}
by_sha256() { sha256sum | cut -d ' ' -f 1; }

# (gzip ends with the CRC, its lowest byte first, and the length.)
by_crc32() {
    local digits
    digits=$(gzip -c | tail -c 8 | hex)
    printf '%s' "${digits:6:2}${digits:4:2}${digits:2:2}${digits:0:2}" | hex
}

# check_sum FOLDER and so on: the example of the folder.
check_sum() {
    answers "$1/sum.elf" '' '\0' '\005' '\005' '\0377\001' '\0377' '\0\001' '\0'
}

# (wc takes a byte that can't be printed for no part of a word, and these are left out)
check_wordcount() {
    each_length by_wc "$1/wordcount.elf" "$work/printable" &&
        answers "$1/wordcount.elf" 'a\vb\fc\rd\te f\n\n' '2 6 13\n' '\0377 \0' '0 2 3\n'
}

check_base64() { each_length by_base64 "$1/base64.elf" "$program"; }

check_sha256() { each_length by_sha256 "$1/sha256.elf" "$program"; }

check_crc32() { each_length by_crc32 "$1/crc32.elf" "$program"; }

# By hand, from RFC 8259.
check_json_field() {
    local deep shut
    deep=$(printf '[%.0s' {1..16000})
    shut=$(printf ']%.0s' {1..16000})
    answers "$1/json_field.elf" 'a\n{}' '' 'a\n{"a":1}' 1 'a\n{"b":1}' '' 'a\n{"a":""}' '""' \
        ' a\n { " a" : [ 1 , { "x" : null } ] , "b" : true } ' '[ 1 , { "x" : null } ]' \
        'a\n{"a":1,"a":-0.5e+3}' -0.5e+3 'a\n{"x":{"a":1},"b":["a"]}' '' \
        '\n{"":"\\\\\\""}' '"\\\\\\""' \
        'a/b\n{"\\u0061\\/b":false}' false '\0303\0251\n{"\\u00E9":1}' 1 '\t\n{"\\t":2}' 2 \
        '\0360\0237\0230\0200\n{"\\ud83d\\ude00":3}' 3 \
        'x\n{"\\ud83d":1,"x":"\\ude00"}' '"\\ude00"' \
        "a\\n{\"a\":$deep$shut}" "$deep$shut" \
        '' '!byte 0' 'a' '!byte 1' 'a\n' '!byte 2' 'a\n[]' '!byte 2' 'a\n1' '!byte 2' \
        'a\n{"a":1' '!byte 8' 'a\n{"a":1}}' '!byte 9' 'a\n{"a":1,}' '!byte 9' \
        'a\n{"a" 1}' '!byte 7' \
        'a\n{"a":01}' '!byte 8' 'a\n{"a":1.}' '!byte 9' 'a\n{"a":+1}' '!byte 7' \
        'a\n{"a":tru}' '!byte 10' 'a\n{"a":NaN}' '!byte 7' 'a\n{"a":[1,]}' '!byte 10' \
        'a\n{"a":[1}}' '!byte 9' 'a\n{"a":"\\x"}' '!byte 9' 'a\n{"a":"\\u12g4"}' '!byte 12' \
        'a\n{"a":"\n"}' '!byte 8' 'a\n{"a":"\0377"}' '!byte 8' \
        'a\n{"a":"\0355\0240\0200"}' '!byte 8' \
        'a\n{"a":"\0300\0200"}' '!byte 8' "a\\n{\"a\":$deep" '!byte 16007'
}

# By hand. The last texts are of two packets, and longer.
check_template() {
    local zeros
    zeros=$(printf '00%.0s' {1..32768})
    answers "$1/template.elf" '\n' '' '\nabc' abc 'n=1\n\n{{n}}' 1 'n=\n\n[{{n}}]' '[]' \
        'a=1\nb={{a}}\na=2\n\n{{a}} {{b}}{{a}}\n' '2 {{a}}2\n' '=x=y\n\n{{}}{' 'x=y{' \
        'a=1\n\n{"b":{"c":{{a}}}}' '{"b":{"c":1}}' 'a=\0\0377\n\n\r{{a}}' '\r\0\0377' \
        '' '!line 1' 'a=1' '!line 1' 'a=1\nb\n\n' '!line 2' 'a=1\n' '!line 2' \
        'a=1\n\r\n\n' '!line 2' \
        'a=1\n\n{{b}}' '!byte 5' 'a=1\n\n{{a}}{{a}' '!byte 10' 'a=1\n\n {{a' '!byte 6' || return
    { printf 'n=' && head -c 1024 /dev/zero && printf '\n\n' && printf '{{n}}%.0s' {1..64}; } \
        >"$work/source"
    replies "$1/template.elf" ok "$zeros/$zeros" || return
    printf '.' >>"$work/source"
    replies "$1/template.elf" ok "$(printf '!long' | hex)"
}

# check_all FOLDER WORDS: each example of the folder, which the words tell.
check_all() {
    local name
    for name in $names; do tell "$name, $2" "check_$name" "$1"; done
}

examples_page() {
    transcript "$top/examples/README.md" >"$work/transcript"
    [ "$(grep -c '^\$ ' "$work/transcript")" -ge 16 ] && same_transcript "$tree" cat
}

# Its text is compiled as it stands there. The steps are this compiler's.
kit_page() {
    transcript "$kit/README.md" '' '## How it runs' >"$work/transcript"
    awk '/^```/ { shown = $0 == "```c"; next } shown' "$kit/README.md" >"$tree/reverse.c"
    [ -s "$tree/reverse.c" ] && same_transcript "$tree" without_steps
}

# The part of the page on Rust, with Debian's compiler, and what it makes.
rust_page() {
    transcript "$kit/README.md" '## In Rust' '## An exception' >"$work/transcript"
    PATH=/usr/bin:$PATH same_transcript "$tree" cat && check_crc32 "$tree"
}

has_rust() {
    [ -x /usr/bin/rustc ] && compgen -G '/usr/src/rustc-*/library/core/src/lib.rs' >/dev/null &&
        return
    skip "functions in Rust, since there is no rustc and rust-src of Debian's"
    return 1
}

# Whether the stored images have their trigger where the page of the examples says.
same_triggers() {
    local name
    for name in $names; do
        "$cross-nm" "$top/examples/$name.elf" | grep -q '^0*1002c . seuss_trigger$' || return
    done
    grep -q "$((0x1002c))" "$top/examples/README.md"
}

# make NAME: the example's image in $work/made, of a text without a warning.
make() {
    local library=
    [ "$1" != template ] || library=--picolibc
    "$kit/seuss-cc" -Werror ${library:+"$library"} -o "$work/made/$1.elf" "$top/examples/$1.c" \
        >/dev/null
}

# halts NAME OPTION..: whether the kit's test program of this name halts with 0.
halts() {
    local name=$1
    shift
    "$kit/seuss-cc" -Werror "$@" -o "$work/test.elf" "$kit/tests/$name.c" || return
    printf 'abc' | "$program" call "$work/test.elf" >"$work/line" || return
    cut -d ' ' -f 1 "$work/line" | grep -x halt:0 >/dev/null && return
    cut -c 1-200 "$work/line"
    return 1
}

# Whether code for another machine is refused, and no program is left of it.
refuses_other_code() {
    local status=0
    echo 'int other(int a) { return a * 3; }' >"$work/other.c"
    echo 'int other(int); int main(void) { return other(3); }' >"$work/main.c"
    "$cross-gcc" -march=rv64imac -mabi=lp64 -O2 -c -o "$work/other.o" "$work/other.c" || return
    "$kit/seuss-cc" -o "$work/mixed.elf" "$work/main.c" "$work/other.o" 2>"$work/errors" ||
        status=$?
    [ "$status" -eq 1 ] && [ ! -e "$work/mixed.elf" ] && grep -q 'code for rv64i' "$work/errors"
}

# What holds with no compiler too.
check_words() {
    expect "no file to write" 2 '' \
        'seuss-cc: which file to write? seuss-cc [--picolibc] -o FILE SOURCE.., or --help\n' \
        sh "$kit/seuss-cc" sum.c
    expect "no compiler" 2 '' \
        "seuss-cc: there is no $cross-gcc. Debian's package gcc-$cross has it\\n" \
        env PATH=/nowhere "$(command -v sh)" "$kit/seuss-cc" -o sum.elf sum.c
}

check_kit() {
    local level
    for level in -O0 -O2 -Os; do tell "the kit at $level" halts kit "$level"; done
    tell "code for another machine" refuses_other_code
    tell "the page of the kit" kit_page
    tell "the triggers" same_triggers
    if ! [ -f "$("$cross-gcc" -print-file-name=picolibc.specs)" ]; then
        skip "the kit with picolibc, since there is none"
        names=${names% template}
    else
        tell "the kit with picolibc" halts libc --picolibc
    fi
}

tell_with shellcheck "the compiler's wrapper" shellcheck "$kit/seuss-cc"
check_words
find_program "$@" || exit 0
tree=$work/tree
mkdir -- "$tree" "$work/made" && cp -R -- "$kit" "$top/examples" "$program" "$tree" || exit 1
LC_ALL=C tr -cd '\11-\15 -~' <"$program" | head -c 40000 >"$work/printable"
tell_with xxd "the page of the examples" examples_page
check_all "$top/examples" "as stored"
tell "crc32, as stored" check_crc32 "$top/examples"
if has "$cross-gcc" "the examples compiled anew, and the kit"; then
    check_kit
    if has_rust; then tell "functions in Rust" rust_page; fi
    for name in $names; do tell "$name compiles" make "$name"; done
    check_all "$work/made" "compiled anew"
fi
