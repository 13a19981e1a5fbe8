#!/bin/bash
# What the program answers to words, files and streams: its status, and each byte that it
# writes. With a word it is the program of that path, and else the gate's build.
# shellcheck source=scripts/check_lib.sh
. "$(dirname -- "${BASH_SOURCE[0]}")/../check_lib.sh"

# answers NAME OUTPUT COMMAND..: status 0, this output, and nothing on standard error.
answers() {
    local name=$1 output=$2
    shift 2
    expect "$name" 0 "$output" '' "$@"
}

# refuses STATUS LINE NAME COMMAND..: the status with its line, and no output. (hints.sh looks
# at what stands behind the line.)
refuses() {
    local status=$1 line=$2 name=$3 errors_by=first_line
    shift 3
    expect "$name" "$status" '' "seuss: $line\\n" "$@"
}

# Ways to run the words on other streams than files.
into_full() { "$@" >/dev/full; }
with_full_errors() { "$@" 2>/dev/full; }
into_unwritable() { "$@" 1<"$work/source"; }
from() {
    local source=$1
    shift
    "$@" <"$source"
}
from_unreadable() { "$@" 0>"$work/unread"; }

# Runs the words on a pipe that brings the two bytes of a packet one by one.
from_slow_pipe() {
    { printf '\001' && sleep 0.1 && printf '\002'; } | "$@"
}

# Runs the words with a pipe as their output that no one reads any more.
into_closed_pipe() {
    { sleep 0.1 && "$@"; echo "$?" >"$work/status"; } | :
    return "$(cat "$work/status")"
}

# Runs the words with 16 MiB of address space for the program and all that it takes.
with_little_memory() { (ulimit -v 16384 && "$@"); }

# Runs the words with as little of an environment as there can be.
without_environment() { env -i "$@"; }

# under NAME COMMAND..: runs the program by another name than its path.
under() { (exec -a "$1" "${@:2}"); }

check_answers() {
    local digits
    source_of '\001\002' 1
    answers "a packet" 'halt:0 12 0102 -\n' "$program" call echo.elf
    answers "a path" 'halt:0 12 0102 -\n' "$program" call ../images/echo.elf
    answers "a whole path" 'halt:0 12 0102 -\n' "$program" call "$folder/echo.elf"
    answers "a name with spaces, a line feed and a dash" 'halt:0 12 0102 -\n' \
        "$program" call $'an image\n-'
    answers "a name beyond ASCII" 'halt:0 12 0102 -\n' "$program" call $'\xc3\xa9'
    answers "a name of a replacement character" 'halt:0 12 0102 -\n' "$program" call $'\xef\xbf\xbd'
    answers "a pipe that brings a byte at a time" 'halt:0 12 0102 -\n' \
        from_slow_pipe "$program" call echo.elf
    answers "no environment" 'halt:0 12 0102 -\n' without_environment "$program" call echo.elf
    answers "no name of its own" 'halt:0 12 0102 -\n' under '' "$program" call echo.elf
    answers "no standard error" 'halt:0 12 0102 -\n' without_errors "$program" call echo.elf
    answers "an empty source" 'halt:0 12 - -\n' from /dev/null "$program" call echo.elf
    source_of '\253' 1024
    digits=$(printf 'ab%.0s' {1..1024})
    answers "1,024 bytes" "halt:0 12 $digits -\\n" "$program" call echo.elf
    # echo.elf takes no packet of more than 1,024 bytes, and sends those that it has for it.
    source_of '\253' 32768
    digits=$(printf '00%.0s' {1..1024})
    answers "32,768 bytes" "halt:0 12 $digits -\\n" "$program" call echo.elf
}

check_words() {
    source_of '\001\002' 1
    refuses 1 words "no words" "$program"
    refuses 1 words "the word call alone" "$program" call
    refuses 1 words "an image alone" "$program" echo.elf
    refuses 1 words "a name of its own is no word" under call "$program" echo.elf
    refuses 1 words "a name that begins with a dash" "$program" call -x
    refuses 1 words "a name that is a dash, of a file" "$program" call -
    refuses 1 words "another word than call" "$program" run echo.elf
    refuses 1 words "another letter in call" "$program" Call echo.elf
    refuses 1 words "a space behind call" "$program" 'call ' echo.elf
    refuses 1 words "both in one word" "$program" 'call echo.elf'
    refuses 1 words "--help" "$program" --help
    refuses 1 words "an image twice" "$program" call echo.elf echo.elf
    refuses 1 words "the words twice" "$program" call echo.elf call echo.elf
    refuses 1 words "a word in front" "$program" x call echo.elf
    refuses 1 words "a word between" "$program" call -- echo.elf
    refuses 1 words "a word behind" "$program" call echo.elf x
    refuses 1 words "a hundred words behind" "$program" call echo.elf {1..100}
    check_odd_words
}

# Words that are empty or aren't UTF-8. One that was left out, or mended, would leave words
# with an answer.
check_odd_words() {
    local odd word
    refuses 1 words "an empty word alone" "$program" ''
    refuses 1 words "an empty image" "$program" call ''
    refuses 1 words "an empty word in front" "$program" '' call echo.elf
    refuses 1 words "an empty word between" "$program" call '' echo.elf
    refuses 1 words "an empty word behind" "$program" call echo.elf ''
    for odd in $'\xff' $'\xc3' $'\xed\xa0\x80' $'\xc0\xaf' $'echo.elf\x80'; do
        word=$(printf '%q' "$odd")
        refuses 1 words "the word $word alone" "$program" "$odd"
        refuses 1 words "the word $word as the image" "$program" call "$odd"
        refuses 1 words "the word $word in front" "$program" "$odd" call echo.elf
        refuses 1 words "the word $word between" "$program" call "$odd" echo.elf
        refuses 1 words "the word $word behind" "$program" call echo.elf "$odd"
    done
}

check_images() {
    source_of '\001\002' 1
    refuses 2 'image Short' "an empty image" "$program" call empty.elf
    refuses 2 'image Short' "63 bytes of an image" "$program" call short.elf
    refuses 2 'image Short' "the image /dev/null" "$program" call /dev/null
    refuses 6 'file fault' "a file that isn't there" "$program" call none.elf
    refuses 6 'file fault' "a folder as the image" "$program" call .
    refuses 6 'file fault' "a name below a file" "$program" call echo.elf/x
    refuses 6 'file fault' "a name that is too long" "$program" call "$(printf 'x%.0s' {1..300})"
}

check_streams() {
    source_of '\253' 32769
    refuses 3 size "32,769 bytes" "$program" call echo.elf
    refuses 3 size "a source without end" from /dev/zero "$program" call echo.elf
    source_of '\001\002' 1
    refuses 4 'read fault' "a folder as the source" from / "$program" call echo.elf
    refuses 4 'read fault' "no source" without_source "$program" call echo.elf
    refuses 4 'read fault' "a source that is only written" from_unreadable "$program" call echo.elf
    refuses 4 'read fault' "no source and no output" without_streams "$program" call echo.elf
    refuses 5 'write fault' "no output" without_output "$program" call echo.elf
    refuses 5 'write fault' "a full output" into_full "$program" call echo.elf
    refuses 5 'write fault' "an output that is only read" into_unwritable "$program" call echo.elf
    refuses 5 'write fault' "a pipe that no one reads" into_closed_pipe "$program" call echo.elf
}

# Which cause comes first, and that a fault of standard error changes nothing.
check_order() {
    source_of '\253' 32769
    refuses 1 words "words before a file" "$program" call none.elf x
    refuses 6 'file fault' "a file before a source" "$program" call none.elf
    refuses 2 'image Short' "an image before a source" "$program" call short.elf
    refuses 3 size "a source before an output" into_full "$program" call echo.elf
    refuses 1 words "words without streams" without_streams "$program"
    refuses 2 'image Short' "an image without a source" without_source "$program" call short.elf
    expect "words without a standard error" 1 '' '' without_errors "$program"
    expect "words with a full standard error" 1 '' '' with_full_errors "$program"
    expect "a size with a full standard error" 3 '' '' with_full_errors "$program" call echo.elf
}

# little BYTES NUMBER..: each number in so many bytes, the lowest first, as escapes.
little() {
    local bytes=$1 number at
    shift
    for number; do
        for ((at = 0; at < bytes; at++)); do printf '\\x%02x' $((number >> 8 * at & 255)); done
    done
}

# program_header OFFSET ADDRESS FLAGS BYTES: the header of a segment with a page of memory.
program_header() {
    little 4 1 "$3"
    little 8 "$1" "$2" "$2" "$4" 4096 1
}

# make_image NAME FLAGS DATA WORD..: the image of these words at 0x10000, on a page with these
# flags, and where DATA is 1 of a page behind it, at 0x20000, that may be read and written.
make_image() {
    local name=$1 flags=$2 data=$3 word at
    shift 3
    at=$((64 + 56 * (1 + data)))
    {
        printf '\\x7fELF\\x02\\x01\\x01' && little 1 0 0 0 0 0 0 0 0 0
        little 2 2 243 && little 4 1 && little 8 0x10000 64 0
        little 4 0 && little 2 64 56 $((1 + data)) 0 0 0
        program_header "$at" 0x10000 "$flags" $((4 * $#))
        [ "$data" -eq 0 ] || program_header 0 0x20000 6 0
        for word; do little 4 "0x$word"; done
    } >"$work/escapes"
    printf '%b' "$(cat "$work/escapes")" >"$folder/$name"
}

# ends NAME LINE FLAGS WORD..: the line of the run of these words.
ends() {
    local name=$1 line=$2 flags=$3
    shift 3
    make_image words.elf "$flags" 0 "$@"
    answers "$name" "$line\\n" "$program" call words.elf
}

# What small programs do, as worked out by hand.
check_runs() {
    : >"$work/source"
    ends "EBREAK" 'fault:3:10000:10000 0 none -' 5 00100073
    ends "a word that is no instruction" 'fault:2:10000:30001073 0 none -' 5 30001073
    ends "a fence" 'halt:0 4 none -' 5 0ff0000f 00000513 00800893 00000073
    ends "a hypercall that there isn't" 'fault:8:10004:63 1 none -' 5 06300893 00000073
    ends "a load from nowhere" 'fault:13:10000:0 0 none -' 5 00003503
    ends "a jump to nowhere" 'fault:12:11000:11000 1 none -' 5 0000106f
    ends "a jump between instructions" 'fault:0:10004:2 1 none -' 5 00300293 000280e7
    ends "a store over the end of a page" 'fault:15:10014:11000 5 none -' 7 \
        00100413 01041413 fff00293 7ff40413 7fd40413 00543023
    ends "a jump to itself" 'budget 100000000 none -' 5 0000006f
    ends "bytes for the console" 'halt:0 7 none 6869' 5 \
        00000517 01c50513 00200593 00200893 00000073 00800893 00000073 00006968
    ends "no room for an empty packet" 'halt:0 6 none -' 5 \
        00000513 00000593 00700893 00000073 00800893 00000073
    check_start
    check_counts
    source_of '\001' 1
    ends "no room for a packet" 'halt:2 6 none -' 5 \
        00000513 00000593 00700893 00000073 00800893 00000073
}

# What a program of the command starts with: the stack pointer at 2^38, a stack of 65,536 bytes
# whose lowest is stored to and loaded and the byte below isn't, and a clock that shows 0.
check_start() {
    ends "the stack pointer" 'halt:274877906944 3 none -' 5 00010513 00800893 00000073
    ends "the lowest byte of the stack" 'halt:0 6 none -' 5 \
        000102b7 405102b3 00528023 0002c503 00800893 00000073
    ends "the byte below the stack" 'fault:15:10008:3ffffeffff 2 none -' 5 \
        000102b7 405102b3 fea28fa3
    ends "the byte at the stack's end" 'fault:13:10000:4000000000 0 none -' 5 00014503
    ends "the clock" 'halt:0 4 none -' 5 00100893 00000073 00800893 00000073
}

# A program with a page of data, which rests.
check_counts() {
    make_image count.elf 5 1 00020437 00043023 00300893 00000073 01040513 04000593 00700893 \
        00000073 00043283 01044303 006282b3 00543023 00040513 00100593 00600893 00000073 fc9ff06f
    answers "a sum of nothing" 'ok 19 00 -\n' "$program" call count.elf
    source_of '\005' 1
    answers "a sum" 'ok 19 05 -\n' "$program" call count.elf
}

# Want of memory: for the bytes of a file, which is as long as one may be, and in the run of a
# program that stores to each page of its memory in turn, from 0x100000 on.
check_memory() {
    source_of '\001\002' 1
    cp -- "$folder/echo.elf" "$folder/long.elf" && truncate -s 16777216 "$folder/long.elf"
    answers "the longest file" 'halt:0 12 0102 -\n' "$program" call long.elf
    refuses 7 memory "the longest file and little memory" \
        with_little_memory "$program" call long.elf
    answers "little memory that is enough" 'halt:0 12 0102 -\n' \
        with_little_memory "$program" call echo.elf
    make_image stores.elf 7 0 001002b7 00001337 0002b023 006282b3 ff9ff06f
    # (the size of its segment in memory stands at 104)
    printf '\000\000\000\260\077' |
        dd of="$folder/stores.elf" bs=1 seek=104 conv=notrunc 2>"$work/copied"
    refuses 7 memory "a run that uses up its memory" \
        with_little_memory "$program" call stores.elf
}

make_images() {
    local name
    folder=$work/images
    mkdir -- "$folder" || return
    for name in echo.elf $'an image\n-' $'\xc3\xa9' $'\xef\xbf\xbd' ./- ./-x call x; do
        cp -- "$top/examples/echo.elf" "$folder/$name" || return
    done
    head -c 63 "$folder/echo.elf" >"$folder/short.elf" && : >"$folder/empty.elf"
}

find_program "$@" || exit 0
make_images || exit 1
check_answers
check_runs
check_words
check_images
check_streams
check_memory
check_order
