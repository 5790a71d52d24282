#!/bin/sh
# make.sh FOLDER: links the small programs beside this script with Debian's lld and GNU ld, and
# writes them as profiles to FOLDER. Needs the packages lld, binutils and python3, and x86-64 as the
# assembler's target. The linkers know no sBPF; what serves is that the numbers of x86-64's
# relocations are the loader's: 1 (R_X86_64_64), 8 (R_X86_64_RELATIVE), 10 (R_X86_64_32).
set -e
here=$(cd "$(dirname "$0")" && pwd)
out=$(cd "${1:?make.sh FOLDER}" && pwd)
work=$(mktemp -d)
trap 'rm -rf "$work"' EXIT

# NAME.s to NAME.o. The assembler's empty .data and .bss go, since a profile may have none.
assemble() {
    as "$here/$1.s" -o "$work/$1.o"
    objcopy -R .data -R .bss "$work/$1.o"
}

# patch NAME MACHINE FLAGS [plain]: machine 247 is BPF, 263 is SBPF; flags 0x20 is version 2.
patch() {
    name=$1
    shift
    python3 "$here/patch.py" "$out/$name.so" "$@"
    chmod 644 "$out/$name.so"
}

# lld NAME FROM MACHINE FLAGS [WORDS]: without page alignment each section's address is its place in
# the file, or with an image base that much higher.
lld() {
    name=$1 from=$2 machine=$3 flags=$4
    shift 4
    assemble "$from"
    ld.lld -shared -z rel --hash-style=sysv --nmagic -e entrypoint "$@" "$work/$from.o" -o "$out/$name.so"
    patch "$name" "$machine" "$flags"
}

# gnu NAME FROM MACHINE FLAGS [plain]: lld has no type 10 in a shared object, and GNU ld has it only where
# it is told not to ask whether an address fits 32 bits. It writes relocations with addends, of which
# `plain` makes relocations without, for solana_rbpf, which reads no others.
gnu() {
    name=$1 from=$2
    shift 2
    assemble "$from"
    ld.bfd -shared -T "$here/sections.ld" -z notext -z noreloc-overflow --hash-style=sysv \
        --no-warn-rwx-segments -e entrypoint "$work/$from.o" -o "$out/$name.so"
    patch "$name" "$@"
}

lld two_functions two_functions 263 0
lld pointers pointers 247 0
lld pointers_version2 pointers 263 0x20 --image-base=0x100000000
lld names names 263 0
gnu names_gnu names 263 0
gnu addends addends 247 0
gnu calls calls 247 0 plain
gnu functions functions 247 0 plain
gnu unresolved unresolved 263 0 plain
