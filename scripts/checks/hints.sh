#!/bin/bash
# What the program says to a person behind the line of each refusal, byte for byte. With a word it
# is the program of that path, and else the gate's build.
# shellcheck source=scripts/check_lib.sh
. "$(dirname -- "${BASH_SOURCE[0]}")/../check_lib.sh"

# hints STATUS LINE HINT NAME COMMAND..: the status, no output, and the line with the hint.
hints() {
    local status=$1 line=$2 hint=$3 name=$4
    shift 4
    expect "$name" "$status" '' "seuss: $line\\n$hint\\n" "$@"
}

into_full() { "$@" >/dev/full; }
into_closed_pipe() {
    { sleep 0.1 && "$@"; echo "$?" >"$work/status"; } | :
    return "$(cat "$work/status")"
}
with_little_memory() { (ulimit -v 16384 && "$@"); }
from() {
    local source=$1
    shift
    "$@" <"$source"
}

# The usage, from the source, with the version and the digest of the sources as they stand.
usage() {
    awk '/^const USAGE/ { shown = 1; next } /^\];/ { exit } shown' \
        "$top/crates/seuss/src/hints.rt" | sed 's/^    "//; s/",$//'
    sed -n 's/^pub const VERSION.*"\(.*\)";/\1/p' "$top/crates/seuss/src/version.rt"
}

# Whether these words get the usage, with each command, and which program this is.
says_usage() {
    local status=0
    "$program" "$@" <"$work/source" >"$work/output" 2>"$work/errors" || status=$?
    usage >"$work/usage"
    { echo "seuss: words" && sed '$d' "$work/usage" && sed -n '$p' "$work/usage" |
        sed "s/.*/seuss &, of the sources $(sh "$top/scripts/source_digest.sh" --own)/"; } \
        >"$work/wanted"
    [ "$status" -eq 1 ] && [ ! -s "$work/output" ] && diff "$work/wanted" "$work/errors"
}

check_words() {
    local words
    for words in '' --help -h help --version -V 'call' 'call a b' 'clal examples/echo.elf'; do
        # shellcheck disable=SC2086 # (each is several words)
        tell "the usage for '$words'" says_usage $words
    done
    tell "the usage for a word that isn't UTF-8" says_usage call $'\xff'
    for words in call asm dis seuss-cc 'man seuss'; do
        tell "the usage has $words" grep -q -- "$words" "$work/errors"
    done
}

# poke NAME OFFSET BYTES: the first example with these bytes, as escapes, at the offset.
poke() {
    cp -- "$top/examples/echo.elf" "$folder/$1" &&
        printf '%b' "$3" | dd of="$folder/$1" bs=1 seek="$2" conv=notrunc status=none
}

check_images() {
    local made='make it anew' kit='compile it for rv64im, as seuss-cc does'
    local none='this is no ELF file; seuss-cc makes one from C, and seuss asm from text'
    local many='it has more than 16,777,216 bytes, 64 program headers or 16 segments'
    hints 2 'image Short' "text: this is no program: it has fewer bytes than an ELF file's header" \
        "a short file" "$program" call text
    head -c 17000000 /dev/zero >"$folder/big"
    hints 2 'image TooBig' "big: $none" "a long file that is no ELF file" "$program" call big
    hints 2 'image TooBig' "page: $none" "a text" "$program" call page
    hints 2 'image TooBig' "standard input: $none" "a text for dis" from "$folder/page" \
        "$program" dis
    poke big.elf 56 '\x41'
    hints 2 'image TooBig' "standard input: $many" "many program headers for dis" \
        from "$folder/big.elf" "$program" dis
    hints 2 'image TooBig' "/dev/zero: $many" "a file without end" "$program" call /dev/zero
    poke many.elf 56 '\x41\0'
    hints 2 'image TooBig' "many.elf: $many" "many program headers" "$program" call many.elf
    head -c 64 /dev/zero >"$folder/zeros"
    hints 2 'image Magic' "zeros: $none" "no ELF file" "$program" call zeros
    hints 2 'image Magic' "standard input: $none" "no ELF file for dis" \
        from "$folder/zeros" "$program" dis
    poke class.elf 4 '\x01'
    hints 2 'image Class' "class.elf: this is no 64-bit program; $kit" "a 32-bit program" \
        "$program" call class.elf
    poke order.elf 5 '\x02'
    hints 2 'image Order' "order.elf: its numbers are high byte first; $kit" "another order" \
        "$program" call order.elf
    poke kind.elf 16 '\x03'
    hints 2 'image FileKind' "kind.elf: it is no whole program at fixed addresses; link it with \
seuss-cc, or -static -no-pie" "a library" "$program" call kind.elf
    poke machine.elf 18 '\x3e'
    hints 2 'image Machine' "machine.elf: this program isn't for RISC-V; $kit" \
        "another machine" "$program" call machine.elf
    poke size.elf 54 '\x39'
    hints 2 'image HeaderSize' \
        "size.elf: its program headers haven't their size of 56 bytes; $made" \
        "another size of headers" "$program" call size.elf
    poke headers.elf 32 '\xff\xff'
    hints 2 'image ProgramHeader' "headers.elf: it ends before its program headers do; $made" \
        "headers outside" "$program" call headers.elf
    check_segments "$made"
}

# Where the segment of the example is another.
check_segments() {
    poke range.elf 72 '\xff\xff'
    hints 2 'image SegmentRange' "range.elf: it ends before one of its segments does; $1" \
        "a segment outside" "$program" call range.elf
    poke address.elf 80 '\0\0\0'
    hints 2 'image Address' "address.elf: a segment begins below 0x1000 or ends above \
0x3fc0000000; link it elsewhere" "a segment too low" "$program" call address.elf
    poke entry.elf 24 '\x02'
    hints 2 'image Entry' \
        "entry.elf: it doesn't begin at an instruction; it wants a label _start, or .entry" \
        "an odd entry" "$program" call entry.elf
    # (the address of the second segment of count.elf stands at 136, and of the first at 80)
    cp -- "$top/examples/count.elf" "$folder/overlap.elf"
    dd if="$folder/overlap.elf" of="$folder/overlap.elf" bs=1 skip=80 seek=136 count=8 \
        conv=notrunc status=none
    hints 2 'image Overlap' \
        "overlap.elf: two of its segments share an address; mend the linker's script" \
        "two segments at one address" "$program" call overlap.elf
}

# text TEXT STATUS-LINE HINT: what asm says of the text, behind a line of a segment.
text() {
    printf '.segment 0x10000 rx 8\n%b' "$1" >"$work/source"
    hints 3 "$2" "$3" "the text '$1'" "$program" asm
}

check_text() {
    local none='a word on it is no instruction, directive or register, or it has a tab; li, mv, '
    none+='ret and the like are none, and the manual says what to write instead'
    text 'li a0, 5\n' 'line 2 UnknownName' "line 2: $none"
    text '\taddi a0, a0, 1\n' 'line 2 UnknownName' "line 2: $none"
    text 'add a0, a1, q9\n' 'line 2 UnknownName' "line 2: $none"
    text 'add a0\n' 'line 2 BadShape' \
        "line 2: its operands aren't those of its first word, it has a tab, or no .segment stands \
above it"
    text 'addi a0, a0, 1x\n' 'line 2 BadNumber' \
        'line 2: a number is decimal, or 0x and hexadecimal, with - in front if negative'
    text '\naddi a0, a0, 5000\n' 'line 3 OutOfRange' \
        'line 3: a number or a jump is too far, or the segment is longer than its size'
    text 'a:\na:\n' 'line 3 TwiceDefined' 'line 3: an earlier line has this label, or this .entry'
    text 'jal zero, b\n' 'line 2 Undefined' \
        'line 2: no line defines a label that it names; one is defined by NAME:'
}

check_sizes() {
    local packet='standard input: more than 32,768 bytes, the most that a packet may have'
    local text='standard input: more than 16,777,216 bytes, the most that is read'
    hints 3 size "$packet" "a long packet" from /dev/zero "$program" call echo.elf
    hints 3 size "$text" "a long text" from /dev/zero "$program" asm
    hints 3 size "$text" "a long image" from /dev/zero "$program" dis
}

check_outside() {
    local longer
    longer=$(printf 'x%.0s' {1..300})
    source_of x 1
    hints 4 'read fault' 'standard input: Is a directory' "a folder as the source" \
        from / "$program" call echo.elf
    hints 4 'read fault' 'standard input: Bad file descriptor' "no source" \
        without_source "$program" call echo.elf
    hints 5 'write fault' 'standard output: No space left on device' "a full output" \
        into_full "$program" call echo.elf
    hints 5 'write fault' 'standard output: Broken pipe' "a pipe that no one reads" \
        into_closed_pipe "$program" call echo.elf
    hints 6 'file fault' 'examples/nope.elf: No such file or directory' "a file that isn't there" \
        "$program" call examples/nope.elf
    hints 6 'file fault' '.: Is a directory' "a folder as the image" "$program" call .
    hints 6 'file fault' 'echo.elf/x: Not a directory' "a name below a file" \
        "$program" call echo.elf/x
    hints 6 'file fault' "$longer: File name too long" "a long name" "$program" call "$longer"
    hints 6 'file fault' 'a?[31mb?: No such file or directory' "a name for a terminal" \
        "$program" call $'a\x1b[31mb\n'
    hints 7 memory 'the system gave no more memory; ulimit -v shows a limit' "little memory" \
        with_little_memory "$program" call full.elf
}

# Nothing of a packet or of a file's bytes is told.
tells_no_secret() {
    printf 'secret%.0s' {1..6000} >"$work/source"
    ! "$program" call echo.elf <"$work/source" 2>"$work/errors" || return
    ! "$program" call text <"$work/source" 2>>"$work/errors" || return
    ! "$program" asm <"$work/source" 2>>"$work/errors" || return
    ! grep -q secret "$work/errors"
}

# Where standard error takes nothing, status and output are what they were.
check_silence() {
    : >"$work/source"
    expect "a hint for no standard error" 6 '' '' without_errors "$program" call none.elf
    expect "no words and no streams" 1 '' '' without_streams without_errors "$program"
}

find_program "$@" || exit 0
folder=$work/images
mkdir -- "$folder" && cp -- "$top/examples/echo.elf" "$folder" && echo secret >"$folder/text" &&
    printf 'secret%.0s' {1..40} >"$folder/page" || exit 1
head -c 16777216 /dev/zero >"$folder/full.elf"
check_words
check_images
check_text
check_sizes
check_outside
tell "no secret" tells_no_secret
check_silence
