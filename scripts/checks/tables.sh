#!/bin/bash
# Tables and images that other tools make too.
# shellcheck source=scripts/check_lib.sh
. "$(dirname -- "${BASH_SOURCE[0]}")/../check_lib.sh"
cd -- "$top" || exit 1

# The words that an assembler makes of the example's text are the last 48 bytes of its image.
same_words() {
    sed "/^\.segment/d" examples/echo.s >"$work/echo.s" &&
        riscv64-unknown-elf-as -march=rv64i -mno-relax -o "$work/echo.o" "$work/echo.s" &&
        riscv64-unknown-elf-objcopy -O binary -j .text "$work/echo.o" "$work/echo.bin" &&
        [ "$(wc -c <"$work/echo.bin")" -eq 48 ] &&
        tail -c 48 examples/echo.elf | cmp - "$work/echo.bin"
}

# rt runs the program beside its data, and takes no link there.
tell "one image as an example and as the program's data" \
    cmp examples/echo.elf crates/seuss/data/echo.elf
tell_with riscv64-unknown-elf-as "the example's text makes its image's words" same_words
tell_with riscv64-unknown-elf-as "the table of rv_code" sh scripts/rv_code_table.sh --check
tell_with "${CC:-cc}" "the vectors of rv_base" sh scripts/rv_base_vectors.sh --check
