#!/bin/bash
# The commands asm and dis: what they write, and each refusal; that the assembler's text of each
# image is that of another assembler; and that what dis prints is assembled to the same words. With
# a word it is the program of that path, and else the gate's build.
# shellcheck source=scripts/check_lib.sh
. "$(dirname -- "${BASH_SOURCE[0]}")/../check_lib.sh"

cross=riscv64-unknown-elf

# What follows the first line is for a person; the check hints has it.
errors_by=first_line

# text TEXT: makes the source this text, as escapes.
text() { printf '%b' "$1" >"$work/source"; }

# refuses NUMBER KIND TEXT: the check that asm refuses the text in this line, for this.
refuses() {
    text "$3"
    expect "asm: line $1 $2" 3 '' "seuss: line $1 $2\\n" "$program" asm
}

check_asm() {
    local file code='.segment 0x10000 rx 4096\n'
    refuses 2 OutOfRange "${code}addi a0, x0, 2048\\n"
    refuses 2 UnknownName "${code}foo x1, x2, x3\\n"
    refuses 2 Undefined "${code}jal x0, there\\n"
    refuses 1 BadShape 'addi x1, x0, 1\n'
    refuses 2 BadNumber "${code}addi x1, x0, 01\\n"
    refuses 4 TwiceDefined "${code}a:\\necall\\na:\\n"
    refuses 1 BadShape ''
    refuses 3 UnknownName "${code}ecall\\necall\\r\\n"
    refuses 2 UnknownName "${code}\\tecall\\n"
    refuses 2 BadShape "${code}# \\0377\\nfoo\\n"
    refuses 3 BadShape "foo\\n\\n\\0303\\n\\0250\\n"
    refuses 1 BadShape '.segment 0x10000 rx 300000000000'
    text "${code}ecall"
    # The file header, the program header and the word.
    file='\0177ELF\002\001\001\0\0\0\0\0\0\0\0\0\002\0\0363\0\001\0\0\0\0\0\001\0\0\0\0\0'
    file+='\0100\0\0\0\0\0\0\0\0\0\0\0\0\0\0\0\0\0\0\0\0100\0\0070\0\001\0\0\0\0\0\0\0'
    file+='\001\0\0\0\005\0\0\0\0170\0\0\0\0\0\0\0\0\0\001\0\0\0\0\0\0\0\001\0\0\0\0\0'
    file+='\004\0\0\0\0\0\0\0\0\020\0\0\0\0\0\0\001\0\0\0\0\0\0\0\0163\0\0\0'
    expect "asm: the last line without its line feed" 0 "$file" '' "$program" asm
    head -c 16777217 /dev/zero >"$work/source"
    expect "asm: a source that is too long" 3 '' 'seuss: size\n' "$program" asm
    expect "asm: an argument more" 1 '' 'seuss: words\n' "$program" asm echo.s
}

check_dis() {
    local text lines
    text '.segment 0x10000 rx 4096\naddi a0, x0, 0\naddi a7, x0, 8\necall\n'
    "$program" asm <"$work/source" >"$work/tiny.elf"
    cp -- "$work/tiny.elf" "$work/source"
    expect "dis: three words" 0 \
        '10000 00000513 addi x10, x0, 0\n10004 00800893 addi x17, x0, 8\n10008 00000073 ecall\n' \
        '' "$program" dis
    text='.segment 0x10000 rx 4096\necall\n.byte 1\n.byte 255\n.segment 0x20000 rw 9\n.word 1\n'
    text "$text.segment 0x30000 x 7\n.word 0\n.byte 0x7f\n"
    "$program" asm <"$work/source" >"$work/rest.elf"
    cp -- "$work/rest.elf" "$work/source"
    lines='10000 00000073 ecall\n10004 01 .byte 0x01\n10005 ff .byte 0xff\n'
    lines+='30000 00000000 .word 0x00000000\n30004 7f .byte 0x7f\n'
    expect "dis: bytes that are no word, and two segments" 0 "$lines" '' "$program" dis
    head -c 63 "$top/examples/echo.elf" >"$work/source"
    expect "dis: no image" 2 '' 'seuss: image Short\n' "$program" dis
    head -c 16777217 /dev/zero >"$work/source"
    expect "dis: a source that is too long" 3 '' 'seuss: size\n' "$program" dis
    expect "dis: a name" 1 '' 'seuss: words\n' "$program" dis echo.elf
}

# makes NAME: whether asm makes the example's image of its text, byte for byte.
makes() {
    "$program" asm <"$top/examples/$1.s" | cmp - "$top/examples/$1.elf"
}

# words_of: of lines of a listing, the address and the word, and the mnemonic of an instruction.
words_of() { awk '{ print $1, $2, $3 }' | grep -v ' \.word$'; }

# The same of another disassembler's lines `ADDRESS: WORD MNEMONIC OPERANDS`. Its `unimp` is a word
# of a CSR, which is no instruction here.
other_words_of() {
    awk '$1 ~ /^[0-9a-f]+:$/ && $2 ~ /^[0-9a-f]+$/ && length($2) == 8 {
        print substr($1, 1, length($1) - 1), $2, $3 }' |
        grep -v ' \(\.word\|\.4byte\|\.insn\|unimp\)$'
}

# other_listing IMAGE: the lines of another disassembler. It knows code by its sections; of an image
# that has none it is given the bytes of each segment that may be executed.
other_listing() {
    local offset address size
    "$cross-objdump" -d -M no-aliases,numeric "$1" >"$work/listed" || return
    cat -- "$work/listed"
    grep -q '^Disassembly' "$work/listed" && return
    "$cross-readelf" -lW "$1" | awk '$1 == "LOAD" && /E +0x/ { print $2, $3, $5 }' |
        while read -r offset address size; do
            tail -c +$((offset + 1)) "$1" | head -c $((size)) >"$work/code"
            "$cross-objdump" -D -b binary -m riscv:rv64 -M no-aliases,numeric \
                --adjust-vma="$address" "$work/code"
        done
}

# same_words IMAGE: whether another disassembler has the same words and mnemonics. It prints code
# alone, and seuss all bytes of a segment with code, so lines that it hasn't aren't looked at.
same_words() {
    "$program" dis <"$1" | words_of >"$work/ours" || return
    other_listing "$1" | other_words_of >"$work/theirs" || return
    [ -s "$work/theirs" ] || return
    grep -vxFf "$work/ours" "$work/theirs" | head -n 5 >"$work/missing"
    [ -s "$work/missing" ] || return 0
    cat -- "$work/missing"
    return 1
}

# read_back IMAGE: whether the lines that dis prints are assembled to the words that they are of.
read_back() {
    "$program" dis <"$1" >"$work/listing" || return
    {
        echo ".segment 0x10000 rx $((4 * $(wc -l <"$work/listing")))"
        cut -d ' ' -f 3- "$work/listing"
    } >"$work/text"
    "$program" asm <"$work/text" >"$work/again.elf" || return
    "$program" dis <"$work/again.elf" | cut -d ' ' -f 2- >"$work/again"
    cut -d ' ' -f 2- "$work/listing" | cmp - "$work/again"
}

find_program "$@" || exit 0
check_asm
check_dis
tell "asm: the text of echo" makes echo
tell "asm: the text of count" makes count
for image in "$top"/examples/*.elf; do
    name=${image##*/}
    tell "dis: $name is read back" read_back "$image"
    tell_with "$cross-objdump" "dis: $name as by another disassembler" same_words "$image"
done
