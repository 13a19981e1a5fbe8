#!/bin/bash
# Whether what stands in README.md, in the manual page and in the table of pseudo-instructions
# is what the program does, from this tree and from an installed copy, with no rt on the PATH.
# With a word it is the program of that path, and else the gate's build.
# shellcheck source=scripts/check_lib.sh
. "$(dirname -- "${BASH_SOURCE[0]}")/../check_lib.sh"

cross=riscv64-unknown-elf

# The PATH without a folder that has an rt.
without_rt() {
    local folders folder path=
    IFS=: read -ra folders <<<"$PATH"
    for folder in "${folders[@]}"; do
        [ -x "$folder/rt" ] || path+=${path:+:}$folder
    done
    PATH=$path "$@"
}

# The parts of README.md, and what a reader finds under each heading.
headings() {
    local heading
    for heading in Run 'Many packets' 'Write a function' Install Statuses \
        "When a function doesn't work" "What is proved, and what isn't" Limits; do
        grep -qxF "## $heading" "$top/README.md" && continue
        echo "  README.md has no heading '$heading'"
        return 1
    done
}

# What stands at the top of README.md: a command, and what it prints.
first_command() {
    awk '/^```/ { block++; next } block == 1' "$top/README.md" >"$work/command"
    awk '/^```/ { block++; next } block == 3' "$top/README.md" >"$work/wanted"
    [ -s "$work/wanted" ] && in_tree bash "$work/command" | diff "$work/wanted" -
}

in_tree() {
    (cd -- "$tree" && without_rt "$@")
}

# readme_part HEADING: whether what stands under the heading prints what stands there.
readme_part() {
    awk -v start="## $1" '$0 == start { on = 1; print; next } /^## / { on = 0 } on' \
        "$top/README.md" >"$work/part"
    transcript "$work/part" >"$work/transcript"
    HOME=$work/home without_rt same_transcript "$tree" cat
}

# The table of pseudo-instructions: each word is GNU's assembler's.
pseudo_instructions() {
    local row
    # shellcheck disable=SC2016 # (these are no commands)
    grep '^| `[a-z.]*[` ].* | `[a-z]* .*`\(, for .*\)* |$' "$top/docs/FORMATS.md" |
        sed 's/, for .*//; s/, `addiw/;addiw/' | tr -d '`|' >"$work/rows"
    sed -n '/^ *\(nop\|mv\|not\|neg\|negw\|sext\|s[enlg][qet]*z\|b[a-z]*\|j[a-z]*\|ret\|li\) */p' \
        "$work/rows" | sed 's/^ *//; s/ *$//; s/  \+/\t/' |
        sed 's/\brd\b/a0/g; s/\brs\b/a1/g; s/\brt\b/a2/g' >"$work/pairs"
    row=$(wc -l <"$work/pairs")
    [ "$row" -ge 27 ] || { echo "  only $row rows were read"; return 1; }
    cut -f 1 "$work/pairs" | sed 's/TO/.+8/' >"$work/theirs.s"
    "$cross-as" -march=rv64im -o "$work/theirs.o" "$work/theirs.s" &&
        "$cross-objcopy" -O binary -j .text "$work/theirs.o" "$work/theirs.bin" || return
    {
        echo '.segment 0x10000 rx 4096'
        cut -f 2 "$work/pairs" | tr ';' '\n' | sed 's/TO/8/'
    } | "$program" asm >"$work/ours.elf" || return
    # (the bytes of the one segment are the file's last)
    tail -c "$(wc -c <"$work/theirs.bin")" "$work/ours.elf" | cmp - "$work/theirs.bin" &&
        [ -s "$work/theirs.bin" ]
}

# The manual page is sound, and its examples print what stands there.
# (that this machine's list of pages is old is no fault of this one)
manual_is_sound() {
    ! mandoc -T lint -W style "$top/docs/seuss.1" 2>&1 | grep -v 'outdated mandoc.db'
}

manual_examples() {
    mandoc -T ascii "$1/man/man1/seuss.1" | col -bx >"$work/manual"
    awk '/^EXAMPLES/ { on = 1 } /^SEE ALSO/ { on = 0 } on' "$work/manual" |
        sed -n 's/^           //p' >"$work/examples"
    awk '/^\$ / { on = 1 } /^$/ { on = 0 } on' "$work/examples" >"$work/transcript"
    [ "$(grep -c '^\$ ' "$work/transcript")" -ge 5 ] || return
    cp -R -- "$1/seuss/examples" "$work/there/" &&
        PATH=$work/home/.local/bin:$PATH without_rt same_transcript "$work/there" cat
}

# Whether each status and each refusal's line stands in README.md and in the manual.
statuses() {
    local status page
    for page in README.md docs/seuss.1; do
        for status in 'words' 'image FAULT' 'line N KIND' size 'read fault' 'write fault' \
            'file fault' memory; do
            grep -q "seuss: $status" "$top/$page" && continue
            echo "  $page hasn't 'seuss: $status'"
            return 1
        done
    done
}

# The installed copy, alone: it runs in a folder where nothing of the repository is.
installed_runs() {
    printf 'abc' | (cd / && env -i PATH=/usr/bin:/bin "$prefix/bin/seuss" call \
        "$prefix/share/seuss/examples/sha256.elf") | cut -d ' ' -f 3 >"$work/line"
    printf 'abc' | sha256sum | cut -d ' ' -f 1 | cmp - "$work/line"
}

installed_compiles() {
    cp -- "$top/examples/sum.c" "$work/there/" &&
        (cd -- "$work/there" && "$prefix/bin/seuss-cc" -o sum.elf sum.c >/dev/null &&
            printf '\005' | "$prefix/bin/seuss" call sum.elf | cut -d ' ' -f 1,3) |
        grep -qx 'ok 05'
}

# Whether words are completed as they are to be.
completes() {
    bash -c '. "$1"; cd "$2" && COMP_WORDS=(seuss c) COMP_CWORD=1 && _seuss seuss c seuss &&
        [ "${COMPREPLY[*]}" = call ] && COMP_WORDS=(seuss call exam) COMP_CWORD=2 &&
        _seuss seuss exam call && [ "${COMPREPLY[*]}" = examples ] &&
        COMP_WORDS=(seuss asm x) && _seuss seuss x asm && [ ${#COMPREPLY[@]} -eq 0 ]' \
        - "$prefix/share/bash-completion/completions/seuss" "$prefix/share/seuss"
}

# What is put over an earlier copy, and that what was there before stays.
installs_again() {
    echo mine >"$prefix/bin/mine" && sh "$top/scripts/install.sh" --program "$program" "$prefix" &&
        [ "$(cat "$prefix/bin/mine")" = mine ] && installed_runs
}

keeps_others() {
    mkdir -p "$work/other/bin" && echo other >"$work/other/bin/seuss" || return
    ! sh "$top/scripts/install.sh" --program "$program" "$work/other" 2>"$work/errors" &&
        [ "$(find "$work/other" -type f | wc -l)" = 1 ] &&
        grep -q "bin/seuss is there, and wasn't put there" "$work/errors"
}

uninstalls() {
    sh "$top/scripts/install.sh" --uninstall "$prefix" &&
        [ "$(find "$prefix" ! -type d)" = "$prefix/bin/mine" ] &&
        [ -z "$(find "$prefix" -type d -empty)" ]
}

check_installed() {
    tell "an installed copy alone" installed_runs
    if has "$cross-gcc" "the installed seuss-cc"; then
        tell "the installed seuss-cc" installed_compiles
    fi
    tell "completion" completes
    if has mandoc "the manual page" && has xxd "the manual page"; then
        tell "the manual page is sound" manual_is_sound
        tell "the manual's examples, installed" manual_examples "$prefix/share"
    fi
    tell "an installation over another" installs_again
    tell "a file of someone else's stays" keeps_others
    tell "an installation that is taken away" uninstalls
}

# Whether the released program of the last commit is of its sources.
is_released() {
    has git "README.md in a fresh clone" && git clone -q -- "$top" "$work/clone" &&
        grep -qsx "sources $(sh "$work/clone/scripts/source_digest.sh")" \
            "$work/clone/dist/$(uname -m)-$(uname -s | tr '[:upper:]' '[:lower:]')/built-from"
}

# What README.md has without a compiler, in a fresh clone, by the launcher.
check_clone() {
    tree=$work/clone
    tell "the first command, in a fresh clone" first_command
    if has xxd "README.md, Run, in a fresh clone"; then
        tell "README.md, Run, in a fresh clone" readme_part Run
    fi
    tell "README.md, Many packets, in a fresh clone" readme_part 'Many packets'
    rm -rf -- "${work:?}/home"
    tell "README.md, Install, in a fresh clone" readme_part Install
}

# What the commands of the pages make, and that git is to leave out.
is_ignored() {
    local made
    for made in {my,bad,reverse,wrong,crc32}.elf crc32.o {upper,reverse,wrong}.c empty.rs \
        rust/libcore.rlib out/stamp.kit; do
        git -C "$top" check-ignore -q "$made" && continue
        echo "  .gitignore has no line for $made"
        return 1
    done
}

tell "the headings of README.md" headings
tell_with git "what the commands of the pages make is ignored" is_ignored
tell "each refusal's line in README.md and the manual" statuses
expect "other words of install.sh" 2 '' \
    'install.sh: its words are [--program FILE] PREFIX, or --uninstall PREFIX\n' \
    sh "$top/scripts/install.sh"
find_program "$@" || exit 0
tree=$work/tree prefix=$work/home/.local
mkdir -p -- "$tree/scripts" "$work/there" "$work/home" &&
    cp -R -- "$top"/{README.md,guest,examples,docs} "$program" "$tree" &&
    cp -- "$top"/scripts/{install.sh,completion.bash} "$tree/scripts" &&
    printf 'echo "%s"\n' "$tree/seuss" >"$tree/scripts/program_path.sh" &&
    chmod +x "$tree/scripts/program_path.sh" || exit 1
awk '/^```/ { shown = $0 == "```c"; next } shown' "$top/README.md" >"$tree/upper.c"
tell "the first command of README.md" first_command
if has xxd "README.md, Run"; then tell "README.md, Run" readme_part Run; fi
tell "README.md, Many packets" readme_part 'Many packets'
if has "$cross-gcc" "README.md, Write a function"; then
    tell "README.md, Write a function" readme_part 'Write a function'
    tell "the table of pseudo-instructions" pseudo_instructions
fi
tell "README.md, Install" readme_part Install
check_installed
if is_released; then check_clone; else
    skip "README.md in a fresh clone, as its released program is of other sources"
fi
