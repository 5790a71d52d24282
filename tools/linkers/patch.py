#!/usr/bin/env python3
"""patch.py FILE MACHINE FLAGS [plain]: makes a profile of an ELF-64 file that a linker wrote for x86-64.

Sets e_machine (247 BPF, 263 SBPF) and e_flags (0x20 for version 2). With `plain` relocations with
addends, which GNU ld writes and solana_rbpf does not read, become relocations without: entries of 16
bytes, section type and dynamic tags to match. Only addends of 0 are taken, so nothing has to be stored.
"""
import struct
import sys

SHT_RELA, SHT_REL, SHT_DYNAMIC = 4, 9, 6
# DT_RELA, DT_RELASZ, DT_RELAENT to DT_REL, DT_RELSZ, DT_RELENT
TAGS = {7: 17, 8: 18, 9: 19}


def main():
    path, machine, flags = sys.argv[1], int(sys.argv[2], 0), int(sys.argv[3], 0)
    plain = sys.argv[4:] == ["plain"]
    with open(path, "rb") as f:
        file = bytearray(f.read())

    def get(form, at):
        return struct.unpack_from("<" + form, file, at)

    def put(form, at, *values):
        struct.pack_into("<" + form, file, at, *values)

    put("H", 18, machine)
    put("I", 48, flags)
    (headers,) = get("Q", 40)
    (count,) = get("H", 60)
    sections = [headers + 64 * k for k in range(count)] if plain else []
    for header in sections:
        (kind,) = get("I", header + 4)
        start, size = get("QQ", header + 24)
        if kind == SHT_RELA:
            entries = [get("QQq", start + at) for at in range(0, size, 24)]
            assert all(addend == 0 for _, _, addend in entries), "an addend"
            for k, (offset, info, _) in enumerate(entries):
                put("QQ", start + 16 * k, offset, info)
            kept = 16 * len(entries)
            file[start + kept : start + size] = bytes(size - kept)
            put("I", header + 4, SHT_REL)
            put("Q", header + 32, kept)
            put("Q", header + 56, 16)
        elif kind == SHT_DYNAMIC:
            for at in range(start, start + size, 16):
                tag, value = get("QQ", at)
                if tag in TAGS:
                    value = {7: value, 8: value // 24 * 16, 9: 16}[tag]
                    put("QQ", at, TAGS[tag], value)
    with open(path, "wb") as f:
        f.write(file)


main()
