#!/bin/sh
# Words of RV64IM as GNU as spells them, to be compared with what rv_code decodes:
# crates/rv_code_tests/src/tests/table.rt.
#
#   rv_code_table.sh             prints the file
#   rv_code_table.sh --check     compares it with the tree's; status 1 where they differ
#   rv_code_table.sh --write     makes the tree's anew
#   rv_code_table.sh --listing   prints lines WORD MNEMONIC OPERANDS
#
# It needs riscv64-unknown-elf-as and -objcopy.
set -eu

CDPATH='' cd -- "$(dirname -- "$0")/.."
made=crates/rv_code_tests/src/tests/table.rt
prefix=riscv64-unknown-elf

work=$(mktemp -d)
trap 'rm -rf -- "$work"' EXIT

# each OPERANDS.. : a line for each, after each mnemonic of $ops.
each() {
    for op in $ops; do
        for operands in "$@"; do echo "$op $operands"; done
    done
}

# One instruction a line, with the operands at the edges of their ranges.
instructions() {
    ops="lui auipc"
    each "x0, 0" "x1, 1" "x31, 524288" "x10, 1048575"
    ops=jal
    each "x0, .+0" "x1, .+2" "x31, .+1048574" "x5, .-1048576" "x1, .-2" "x6, .+2048" \
        "x7, .+4096" "x8, .+699050" "x9, .-349526"
    ops=jalr
    each "x0, 0(x1)" "x1, -1(x31)" "x31, 2047(x0)" "x5, -2048(x6)"
    ops="beq bne blt bge bltu bgeu"
    each "x0, x0, .+0" "x1, x2, .+4094" "x31, x30, .-4096" "x3, x31, .-2" "x4, x5, .+2048" \
        "x6, x7, .+1364"
    ops="lb lh lw ld lbu lhu lwu sb sh sw sd"
    each "x0, 0(x31)" "x31, -1(x0)" "x1, 2047(x2)" "x3, -2048(x4)" "x5, 1365(x6)"
    ops="addi slti sltiu xori ori andi addiw"
    each "x0, x0, 0" "x31, x1, -1" "x1, x31, 2047" "x2, x3, -2048"
    ops="slli srli srai"
    each "x0, x31, 0" "x31, x0, 1" "x8, x8, 32" "x1, x2, 63"
    ops="slliw srliw sraiw"
    each "x0, x31, 0" "x31, x0, 1" "x8, x8, 16" "x1, x2, 31"
    ops="add sub sll slt sltu xor srl sra or and mul mulh mulhsu mulhu div divu rem remu"
    ops="$ops addw subw sllw srlw sraw mulw divw divuw remw remuw"
    each "x0, x0, x0" "x31, x31, x31" "x1, x2, x4" "x8, x16, x31"
    ops=fence
    each "iorw, iorw" "r, w" "w, r" "io, rw"
    echo ecall
    echo ebreak
}

words() {
    { echo ".option norvc"; cat "$work/instructions"; } >"$work/text.s"
    "$prefix-as" -march=rv64im -mno-relax -o "$work/text.o" "$work/text.s"
    "$prefix-objcopy" -O binary -j .text "$work/text.o" "$work/text.bin"
    od -An -v -t x4 -w4 "$work/text.bin" | tr -d ' '
}

listing() {
    instructions >"$work/instructions"
    words >"$work/words"
    paste -d ' ' "$work/words" "$work/instructions"
}

# The table's rows: the word, and the instruction as `{:?}` prints it.
rows() {
    awk '
        function register(text) { sub(/^x/, "", text); return text }
        function offset(text) { sub(/^\./, "", text); return text + 0 }
        function set(text, n) {
            n = 0
            if (text ~ /i/) n += 8
            if (text ~ /o/) n += 4
            if (text ~ /r/) n += 2
            if (text ~ /w/) n += 1
            return n
        }
        function op() { return "op: " variant }
        function rd(at) { return "rd: " register(field[at]) }
        function rs1(at) { return "rs1: " register(field[at]) }
        function rs2(at) { return "rs2: " register(field[at]) }
        function imm(at) { return "imm: " field[at] }
        function of(a, b, c, d) {
            return a (b == "" ? "" : ", " b) (c == "" ? "" : ", " c) (d == "" ? "" : ", " d)
        }
        {
            word = $1; name = $2
            variant = toupper(substr(name, 1, 1)) substr(name, 2)
            text = $0; sub(/^[^ ]+ [^ ]+ ?/, "", text); gsub(/ /, "", text)
            gsub(/[()]/, ",", text); sub(/,$/, "", text)
            split(text, field, ",")
            group = name ~ /w$/ ? "W" : ""
            kind = variant
            if (name ~ /^(ecall|ebreak)$/) fields = ""
            else if (name ~ /^(lui|auipc)$/) fields = of(rd(1), "n: " field[2])
            else if (name == "jal") fields = of(rd(1), "offset: " offset(field[2]))
            else if (name == "jalr") fields = of(rd(1), rs1(3), imm(2))
            else if (name ~ /^b/) {
                kind = "Branch"
                fields = of(op(), rs1(1), rs2(2), "offset: " offset(field[3]))
            } else if (name ~ /^l/) {
                kind = "Load"
                fields = of(op(), rd(1), rs1(3), imm(2))
            } else if (name ~ /^s[bhwd]$/) {
                kind = "Store"
                fields = of(op(), rs1(3), rs2(1), imm(2))
            } else if (name == "fence") {
                fields = of("rd: 0", "rs1: 0", "n: " set(field[1]) * 16 + set(field[2]))
            } else if (field[3] ~ /^x/) {
                kind = "Op" group
                fields = of(op(), rd(1), rs1(2), rs2(3))
            } else {
                kind = "OpImm" group
                fields = of(op(), rd(1), rs1(2), imm(3))
            }
            print word, kind (fields == "" ? "" : " { " fields " }")
        }' "$1"
}

table() {
    listing >"$work/listing"
    cat <<'END'
//! Words and their instructions, from an assembler (scripts/rv_code_table.sh).

/// A line for each word: the word, and its instruction as `{:?}` prints it.
pub const ROWS: &str = "\
END
    rows "$work/listing"
    echo '";'
}

case ${1-} in
"") table ;;
--check)
    table >"$work/table.rt"
    diff -- "$made" "$work/table.rt"
    ;;
--write)
    table >"$work/table.rt"
    cp -- "$work/table.rt" "$made"
    ;;
--listing) listing ;;
*)
    echo "rv_code_table.sh: its words are --check, --write or --listing, or none" >&2
    exit 2
    ;;
esac
