#!/bin/bash
# Whether programs that a C compiler makes for the guest, at several levels of optimization,
# reply what the same C says on this machine. With a word it is the program of that path, and
# else the gate's build.
# shellcheck source=scripts/check_lib.sh
. "$(dirname -- "${BASH_SOURCE[0]}")/../check_lib.sh"

guests=$top/scripts/guests
compiler=riscv64-unknown-elf-gcc

# compile LEVEL SOURCE [WORD..]: the guest of a source.
compile() {
    local level=$1 source=$2
    shift 2
    "$compiler" -march=rv64im -mabi=lp64 "$level" -nostdlib -static -ffreestanding \
        -fno-tree-loop-distribute-patterns -Wl,-Ttext=0x10000 -Wl,--no-warn-rwx-segments \
        -o "$work/guest.elf" "$@" "$guests/start.S" "$source" -lgcc
}

# here SOURCE [WORD..]: the same source for this machine.
here() {
    local source=$1
    shift
    "${CC:-cc}" -O1 -fwrapv -o "$work/here" "$@" "$source"
}

# The line of a run has the end, the number of instructions, the packets and the console; here
# the number isn't known.
same_reply() {
    compile "$1" "$2" && here "$2" || return
    "$program" call "$work/guest.elf" </dev/null >"$work/line" || return
    echo "halt:0 $("$work/here") -" >"$work/wanted"
    sed 's/^\([^ ]*\) [0-9]* /\1 /' "$work/line" | cmp - "$work/wanted"
}

# What main answers is the code of the halt, and here the status.
same_status() {
    local status=0
    compile "$1" "$2" -DSCALE=100 && here "$2" -DSCALE=100 || return
    "$program" call "$work/guest.elf" </dev/null >"$work/line" || return
    "$work/here" || status=$?
    [ "$(cut -d ' ' -f 1 "$work/line")" = "halt:$status" ]
}

if find_program "${1-}" && has "$compiler" "the guests" && has "${CC:-cc}" "the guests"; then
    for level in -O0 -O2 -Os; do
        for source in "$guests"/*.c; do
            tell "$(basename "$source" .c) at $level" same_reply "$level" "$source"
        done
        for source in "$top"/bench/guests/*.c; do
            tell "$(basename "$source" .c) at $level" same_status "$level" "$source"
        done
    done
fi
