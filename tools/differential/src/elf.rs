//! Makes structured ELF files: both versions, the sections and tables that a load looks at, and
//! the values around which its checks turn.

use crate::{finding, random::Random};

pub const PROGRAM_START: u64 = 0x1_0000_0000;
pub const STACK_START: u64 = 0x2_0000_0000;

const SHT_NULL: u32 = 0;
const SHT_PROGBITS: u32 = 1;
const SHT_SYMTAB: u32 = 2;
const SHT_STRTAB: u32 = 3;
const SHT_RELA: u32 = 4;
const SHT_HASH: u32 = 5;
const SHT_DYNAMIC: u32 = 6;
const SHT_NOBITS: u32 = 8;
const SHT_REL: u32 = 9;
const SHT_DYNSYM: u32 = 11;

/// Names of symbols. Built-ins are drawn from them too.
pub const SYMBOLS: &[&[u8]] = &[
    b"entrypoint",
    b"entrypoint",
    b"",
    b"sol_log_",
    b"abort",
    b"foo",
    b"function_foo",
    b"main",
    b"entrypoint2",
    b"entrypoin",
    b"function_1",
    b"not \xff utf8 \xc3",
    b"this_name_has_exactly_sixty_three_bytes_which_is_the_longest_ok",
    b"this_name_has_exactly_sixty_four_bytes_and_that_is_one_too_many.",
    b"this_name_is_far_too_long_for_the_reader_that_stops_after_sixty_four_bytes",
    b"bad \xe2\x82 at sixty-four bytes and more so that it is refused as text \xf0\x9f",
];

/// So many of them, the last, are too long.
const TOO_LONG: usize = 3;

/// Names of further sections: longest, too long, not UTF-8, near those that the load knows.
const SECTION_NAMES: &[&[u8]] = &[
    b".comment",
    b".fifteen_bytes.",
    b".sixteen_bytes__",
    b".not\xffutf8",
    b".text2",
    b".bss",
    b".bss.more",
    b".data",
    b".data.more",
    b".data.rel",
    b".data.rel.ro",
    b".data.rel.ro.x",
    b".symtab",
    b".strtab",
    b".dynstr",
    b".text",
    b".rodata",
    b".eh_frame",
    b"",
];

/// What a load puts together for the machine.
const READ_ONLY: &[&[u8]] = &[b".text", b".rodata", b".data.rel.ro", b".eh_frame"];

struct Section {
    name: &'static [u8],
    kind: u32,
    flags: u64,
    align: u64,
    data: Vec<u8>,
    /// Size of a section without bytes.
    nobits: u64,
    at: u64,
    addr: u64,
    name_at: u32,
}

impl Section {
    fn size(&self) -> u64 {
        if self.kind == SHT_NOBITS {
            self.nobits
        } else {
            self.data.len() as u64
        }
    }
}

fn section(name: &'static [u8], kind: u32, flags: u64, data: Vec<u8>) -> Section {
    Section {
        name,
        kind,
        flags,
        align: 8,
        data,
        nobits: 0,
        at: 0,
        addr: 0,
        name_at: 0,
    }
}

/// Stores a number of `width` bytes.
pub fn put(bytes: &mut [u8], at: u64, value: u64, width: usize) {
    bytes[at as usize..at as usize + width].copy_from_slice(&value.to_le_bytes()[..width]);
}

/// The name of a symbol, seldom one that is too long to be read.
fn symbol_name(r: &mut Random) -> &'static [u8] {
    if r.odd(4) {
        return r.pick(SYMBOLS);
    }
    r.pick(&SYMBOLS[..SYMBOLS.len() - TOO_LONG])
}

/// A table of names, each with its zero byte, and where each starts.
fn strings(r: &mut Random, names: &[&[u8]]) -> (Vec<u8>, Vec<u32>) {
    let mut bytes = if r.odd(12) { Vec::new() } else { vec![0] };
    let mut at = Vec::new();
    for name in names {
        at.push(bytes.len() as u32);
        bytes.extend_from_slice(name);
        bytes.push(0);
    }
    if r.odd(16) {
        // the last name is cut off
        let cut = r.range(1, 4).min(bytes.len() as u64) as usize;
        bytes.truncate(bytes.len() - cut);
    }
    (bytes, at)
}

/// Ends a table in a name without its zero byte, and answers where that starts. Names are looked at up to `most` bytes.
fn end_open(r: &mut Random, table: &mut Vec<u8>, most: u64) -> u32 {
    let at = table.len() as u32;
    let length = r.range(most - 2, most + 2) as usize;
    table.resize(table.len() + length, b'o');
    at
}

/// How big the files are.
#[derive(Clone, Copy, Debug, PartialEq, Eq)]
pub enum Style {
    Usual,
    /// A few hundred bytes, for a sample that is kept.
    Small,
    /// More functions than the constant table of keys has.
    Large,
}

/// Whether a file has relocations that bring an addend.
#[derive(Clone, Copy, Debug, PartialEq, Eq)]
pub enum Addends {
    No,
    Drawn,
    /// None, but a section of zeros with room for each of the others as one that brings an addend.
    Room,
}

/// What a file has beyond what the Rust looks at.
#[derive(Clone, Copy, Debug, PartialEq, Eq)]
pub struct Beyond {
    pub addends: Addends,
    /// A hash table of the dynamic symbols.
    pub hash_table: bool,
    /// Each table of names ends in a name without its zero byte, about as long as a name may be.
    pub open_names: bool,
    /// Most slots call one of the next, so that calls make long chains.
    pub chains: bool,
}

impl Beyond {
    pub fn addends(addends: Addends) -> Beyond {
        Beyond {
            addends,
            ..Beyond::NOTHING
        }
    }

    pub const NOTHING: Beyond = Beyond {
        addends: Addends::No,
        hash_table: false,
        open_names: false,
        chains: false,
    };
}

/// A file, and what is known of it.
pub struct Made {
    pub bytes: Vec<u8>,
    pub version2: bool,
    /// Sections do not stand at their file offsets, so that version 1 is accepted only where broken
    /// files are not rejected.
    pub moved: bool,
}

/// Instructions: exits, loads of 64 bits over two slots, calls near and far. Also where the loads
/// stand.
fn text(r: &mut Random, slots: usize, style: Style) -> (Vec<u8>, Vec<u64>) {
    let mut bytes = Vec::new();
    let mut loads = Vec::new();
    while bytes.len() < slots * 8 {
        let here = (bytes.len() / 8) as i64;
        let n = slots as i64;
        match r.below(8) {
            0 | 1 => {
                let target = if r.odd(if style == Style::Large { 2000 } else { 10 }) {
                    r.pick(&[-1, n, n + 1, -2])
                } else {
                    r.below(slots as u64) as i64
                };
                let imm = match () {
                    _ if r.one_in(5) => -1,
                    _ if r.odd(200) => r.pick(&[i32::MIN, i32::MAX]),
                    _ => (target - here - 1) as i32,
                };
                bytes.extend_from_slice(&[0x85, r.pick(&[0x10, 0x10, 0x00, 0x20]), 0, 0]);
                bytes.extend_from_slice(&imm.to_le_bytes());
            }
            2 => {
                let low: u32 = match r.odd(8) {
                    true => 0,
                    false => r.pick(&[8, 0x100, 0xffff_fff8, 0x1_0000, 1]),
                };
                let high: u32 = r.pick(&[0, 0, 0, 1, 2, 0xffff_ffff]);
                bytes.extend_from_slice(&[0x18, 0x01, 0, 0]);
                bytes.extend_from_slice(&low.to_le_bytes());
                bytes.extend_from_slice(&[0; 4]);
                bytes.extend_from_slice(&high.to_le_bytes());
                loads.push((here * 8) as u64);
            }
            3 => {
                // anything; a far call by chance is left to the odd calls
                let mut slot = r.next().to_le_bytes();
                if slot[0] == 0x85 {
                    slot[0] = 0x95;
                }
                bytes.extend_from_slice(&slot);
            }
            4 => bytes.extend_from_slice(&[0; 8]),
            _ => bytes.extend_from_slice(&[0x95, 0, 0, 0, 0, 0, 0, 0]),
        }
    }
    bytes.truncate(slots * 8);
    if r.one_in(10) {
        // a piece behind the last whole slot
        let more = r.range(1, 7) as usize;
        bytes.resize(bytes.len() + more, 0x85);
    }
    (bytes, loads)
}

/// Instructions that call one of the next three slots, seldom one before; exits between them.
fn chains(r: &mut Random, slots: usize) -> Vec<u8> {
    let mut bytes = Vec::new();
    for here in 0..slots {
        let next = (slots - here - 1).min(3) as u64;
        let back = r.odd(4 * slots as u64);
        let target = match next {
            _ if back => r.below(here as u64 + 1) as i64,
            0 => here as i64,
            _ => here as i64 + r.range(1, next) as i64,
        };
        // one that calls itself is no call
        if r.one_in(5) || (next == 0 && !back) {
            bytes.extend_from_slice(&[0x95, 0, 0, 0, 0, 0, 0, 0]);
        } else {
            bytes.extend_from_slice(&[0x85, 0x10, 0, 0]);
            bytes.extend_from_slice(&((target - here as i64 - 1) as i32).to_le_bytes());
        }
    }
    bytes
}

/// What is drawn for the whole file.
struct Plan {
    version2: bool,
    symbols: usize,
    relocations: usize,
    /// Relocations that bring an addend.
    relas: usize,
}

/// An addend: small, an address, large; seldom negative.
fn addend(r: &mut Random, text: u64) -> u64 {
    match r.below(8) {
        _ if r.odd(8) => r.pick(&[1 << 63, u64::MAX, u64::MAX - 7, 0x8000_0000_0000_0001]),
        0 => 0,
        1 => r.pick(&[PROGRAM_START, PROGRAM_START - 1, STACK_START, 0xffff_ffff]),
        2 => r.pick(&[(1 << 63) - 1, 1 << 62, 1 << 40]),
        3 => r.next() >> 1,
        4 => text.wrapping_add(8 * r.below(8)) & (u64::MAX >> 1),
        _ => r.pick(&[1, 8, 0x10, 0x100, 0x8000_0000]),
    }
}

fn st_value(r: &mut Random, start: u64, size: u64) -> u64 {
    if r.odd(2) {
        return match r.below(6) {
            0 => 0,
            1 => start.wrapping_add(size),
            2 => start.wrapping_sub(1),
            3 => start.wrapping_add(size).wrapping_sub(1),
            4 => start.wrapping_add(r.below(size + 1)),
            _ => r.pick(&[u64::MAX, PROGRAM_START, STACK_START, 0x20]),
        };
    }
    if r.one_in(6) {
        return 0;
    }
    start.wrapping_add(8 * r.below((size / 8).max(1)))
}

fn symbol_table(r: &mut Random, n: usize, names: &[u32], start: u64, size: u64) -> Vec<u8> {
    let mut bytes = Vec::new();
    for i in 0..n {
        let name = match () {
            _ if r.odd(20) => r.pick(&[u32::MAX, 1000, 63, 64]),
            _ if names.is_empty() => 0,
            _ => r.pick(names),
        };
        let info = if i == 0 && !r.one_in(4) {
            0
        } else {
            r.pick(&[0x12, 0x12, 0x12, 0x02, 0x10, 0x22, 0x03, 0x00, 0xff])
        };
        bytes.extend_from_slice(&name.to_le_bytes());
        bytes.extend_from_slice(&[info, 0, 1, 0]);
        bytes.extend_from_slice(&st_value(r, start, size).to_le_bytes());
        bytes.extend_from_slice(&[0; 8]);
    }
    bytes
}

/// The bytes of the symbols' names, as far as their offsets lie among the names.
fn symbol_names(symbols: &[u8], names: &[u8]) -> Vec<Vec<u8>> {
    let name = |symbol: &[u8]| {
        let at = u32::from_le_bytes(symbol[..4].try_into().unwrap()) as usize;
        let from = names.get(at..).unwrap_or_default();
        let end = from.iter().position(|b| *b == 0).unwrap_or(from.len());
        from[..end].to_vec()
    };
    symbols.chunks_exact(24).map(name).collect()
}

/// The hash table of symbols with these names: each but the first stands in its bucket's chain, in any
/// order. Seldom a number of it is another.
fn hash_table(r: &mut Random, buckets: u32, names: &[Vec<u8>]) -> Vec<u8> {
    let count = names.len() as u32;
    let (mut first, mut chain) = (vec![0; buckets as usize], vec![0; names.len()]);
    let mut order: Vec<u32> = (1..count).collect();
    for k in 1..order.len() {
        let to = r.index(k + 1);
        order.swap(k, to);
    }
    for index in order {
        let bucket = (finding::elf_hash(&names[index as usize]) % buckets) as usize;
        chain[index as usize] = first[bucket];
        first[bucket] = index;
    }
    let mut numbers = [vec![buckets, count], first, chain].concat();
    if r.odd(2) {
        // another count, or an index: past the symbols, a circle, the end, another chain
        for _ in 0..r.range(1, 2) {
            let at = r.index(numbers.len());
            numbers[at] = match r.below(6) {
                0 => r.pick(&[0, u32::MAX, 1 << 31]),
                1 => numbers[at].wrapping_add(1),
                2 => numbers[at].wrapping_sub(1),
                3 => count,
                _ => r.below(count as u64 + 1) as u32,
            };
        }
    }
    numbers.iter().flat_map(|n| n.to_le_bytes()).collect()
}

/// Bytes too many for whole entries.
fn uneven(r: &mut Random) -> usize {
    if r.odd(20) {
        r.pick(&[1, 8, 16])
    } else {
        0
    }
}

/// A program header.
fn header(bytes: &mut [u8], at: u64, kind: u64, from: u64, vaddr: u64, size: u64, memory: u64) {
    put(bytes, at, kind, 4);
    put(bytes, at + 4, 5, 4);
    put(bytes, at + 8, from, 8);
    put(bytes, at + 16, vaddr, 8);
    put(bytes, at + 24, vaddr, 8);
    put(bytes, at + 32, size, 8);
    put(bytes, at + 40, memory, 8);
    put(bytes, at + 48, 8, 8);
}

/// Where the file stands in memory: what is added to file offsets.
#[derive(Clone, Copy)]
enum Base {
    At(u64),
    /// So that the text starts here.
    TextStarts(u64),
    /// So that the text ends here.
    TextEnds(u64),
}

/// One file.
pub fn file(r: &mut Random, style: Style, beyond: Beyond) -> Made {
    let addends = beyond.addends;
    let drawn = addends == Addends::Drawn;
    r.sober = r.pick(&[1, 2, 4, 16, 0]);
    let version2 = r.one_in(2);
    let slots = match style {
        _ if r.odd(12) => r.range(0, 1),
        Style::Small => r.range(1, 8),
        // around the constant table's 256 keys, and around the 1,024 targets that a load remembers
        Style::Large if r.one_in(2) => r.range(200, 400),
        Style::Large => r.range(900, 1500),
        _ if r.one_in(12) => r.range(16, 40),
        _ => r.range(2, 12),
    } as usize;
    let moved = r.odd(4);
    let nudge = r.pick(&[0, 0, 1, 8, 0u64.wrapping_sub(1), 0u64.wrapping_sub(8)]);
    let base = match (version2, moved) {
        (true, false) => Base::At(PROGRAM_START),
        (false, false) => Base::At(0),
        // the text's last address is the last of all
        _ if moved && r.one_in(12) => Base::TextEnds(r.pick(&[0, u64::MAX, 1])),
        (true, true) => match r.below(6) {
            0 => Base::At(0),
            1 => Base::At(STACK_START - 0x400 - 8 * r.below(64)),
            2 => Base::At(r.pick(&[8, PROGRAM_START - 0x200, PROGRAM_START / 2])),
            3 => Base::TextEnds(STACK_START.wrapping_add(nudge)),
            4 => Base::TextStarts(PROGRAM_START.wrapping_add(nudge)),
            _ => Base::At(r.pick(&[0u64.wrapping_sub(0x1000), 0u64.wrapping_sub(0x200), 1 << 40])),
        },
        (false, true) => match r.below(6) {
            0 | 1 => Base::At(r.pick(&[0x1000, 8, 1])),
            2 => Base::At(PROGRAM_START - 8 * r.below(64)),
            3 | 4 => Base::TextStarts(PROGRAM_START.wrapping_add(nudge)),
            _ => Base::At(r.pick(&[PROGRAM_START, STACK_START, 0u64.wrapping_sub(0x400)])),
        },
    };
    let mut plan = Plan {
        version2,
        relas: 0,
        symbols: match style {
            _ if r.odd(8) => 0,
            Style::Large => r.range(1, 400),
            Style::Small => r.range(1, 3),
            Style::Usual => r.range(1, 6),
        } as usize,
        relocations: match style {
            _ if r.one_in(4) => 0,
            Style::Large => r.range(1, 400),
            Style::Small => r.range(1, 2),
            Style::Usual => r.range(1, 7),
        } as usize,
    };

    if drawn {
        // they alone, behind older ones, or none
        if r.one_in(2) {
            plan.relocations = 0;
        }
        plan.relas = match style {
            _ if r.one_in(10) => 0,
            Style::Large => r.range(1, 400),
            Style::Small => r.range(1, 2),
            Style::Usual => r.range(1, 6),
        } as usize;
    }

    // the sections, in the order of the file
    let mut sections = vec![section(b"", SHT_NULL, 0, Vec::new())];
    let alloc = 2;
    let (code, loads) = match beyond.chains {
        true => (chains(r, slots), Vec::new()),
        false => text(r, slots, style),
    };
    let mut parts = vec![section(b".text", SHT_PROGBITS, alloc | 4, code)];
    if r.odd(16) {
        parts[0].kind = SHT_NOBITS;
        parts[0].nobits = parts[0].data.len() as u64;
        parts[0].data.clear();
    }
    for name in [&b".rodata"[..], b".data.rel.ro", b".eh_frame"] {
        if r.one_in(if style == Style::Small { 10 } else { 3 }) {
            let most = if style == Style::Small { 2 } else { 6 };
            let n = r.range(0, most) * 8 + if r.one_in(6) { r.below(8) } else { 0 };
            let mut data: Vec<u8> = (0..n)
                .map(|_| r.pick(&[0, 0, 0, 1, 8, 0x10, 0xff]))
                .collect();
            if r.one_in(4) {
                data.resize(n as usize + 8, 0);
            }
            parts.push(section(name, SHT_PROGBITS, alloc, data));
            if r.odd(16) {
                let last = parts.last_mut().unwrap();
                last.kind = SHT_NOBITS;
                last.nobits = last.data.len() as u64;
                last.data.clear();
            }
        }
    }
    if r.one_in(8) {
        // between the read-only ones it makes version 1 copy them
        let name = r.pick(&[&b".comment"[..], b".note", b".data.rel", b".data.rel.rox"]);
        let flags = if r.one_in(2) { alloc } else { 0 };
        parts.push(section(name, SHT_PROGBITS, flags, vec![9; 8]));
    }
    if r.odd(10) {
        let writable = r.pick(&[2, 3]);
        let name: &[u8] = r.pick(&[&b".data"[..], b".bss", b".data.rel"]);
        parts.push(section(name, SHT_PROGBITS, writable, vec![7; 8]));
    }
    if r.odd(8) {
        let name = r.pick(&[&b".bss"[..], b".nobits", b".data"]);
        let mut s = section(name, SHT_NOBITS, 3, Vec::new());
        s.nobits = r.pick(&[0, 8, 0x1000, u64::MAX]);
        parts.push(s);
    }
    if r.one_in(2) {
        let (a, b) = (r.index(parts.len()), r.index(parts.len()));
        parts.swap(a, b);
    }
    let dynamic = !r.one_in(if style == Style::Small { 2 } else { 6 });
    let buckets = match beyond.hash_table {
        true => r.range(1, 4) as u32,
        false => 0,
    };
    let mut dynamic_names = Vec::new();
    let most_names = if style == Style::Small { 1 } else { 4 };
    if dynamic {
        let names: Vec<&[u8]> = (0..r.range(1, most_names + 1))
            .map(|_| symbol_name(r))
            .collect();
        let (mut table, at) = strings(r, &names);
        dynamic_names = at;
        if beyond.open_names {
            dynamic_names.push(end_open(r, &mut table, 64));
        }
        parts.push(section(
            b".dynamic",
            SHT_DYNAMIC,
            alloc | 1,
            vec![
                0;
                16 * match style {
                    Style::Small => r.range(4, 5),
                    _ => r.range(6, 9),
                } as usize
                    + 3 * 16 * drawn as usize
                    + 16 * beyond.hash_table as usize
            ],
        ));
        parts.push(section(
            b".dynsym",
            r.pick(&[SHT_DYNSYM, SHT_DYNSYM, SHT_SYMTAB]),
            alloc,
            vec![0; 24 * plan.symbols + uneven(r)],
        ));
        parts.push(section(b".dynstr", SHT_STRTAB, alloc, table));
        parts.push(section(
            b".rel.dyn",
            SHT_REL,
            alloc,
            vec![0; 16 * plan.relocations],
        ));
        let room = match addends {
            Addends::No => None,
            Addends::Drawn => Some(plan.relas),
            Addends::Room => Some(plan.relocations),
        };
        if let Some(n) = room {
            parts.push(section(b".rela.dyn", SHT_RELA, alloc, vec![0; 24 * n]));
        }
        if beyond.hash_table {
            let mut s = section(b".hash", SHT_HASH, alloc, Vec::new());
            s.align = r.pick(&[8, 4, 1]);
            s.data = vec![0; 4 * (2 + buckets as usize + plan.symbols)];
            parts.push(s);
        }
        if r.one_in(4) {
            // without it the program header leads there
            let at = parts.iter().position(|s| s.kind == SHT_DYNAMIC).unwrap();
            parts[at].kind = r.pick(&[SHT_PROGBITS, SHT_DYNAMIC]);
        }
    }
    let mut label_names = Vec::new();
    let labels = match style {
        _ if r.one_in(2) => 0,
        Style::Large => r.range(0, 1200),
        Style::Small => r.range(0, 2),
        Style::Usual => r.range(0, 5),
    } as usize;
    if r.one_in(if style == Style::Small { 4 } else { 2 }) {
        let names: Vec<&[u8]> = (0..r.range(1, most_names))
            .map(|_| symbol_name(r))
            .collect();
        let (mut table, at) = strings(r, &names);
        label_names = at;
        if beyond.open_names {
            label_names.push(end_open(r, &mut table, 64));
        }
        let kind = if r.odd(4) {
            r.pick(&[SHT_DYNSYM, SHT_PROGBITS])
        } else {
            SHT_SYMTAB
        };
        parts.push(section(
            b".symtab",
            kind,
            0,
            vec![0; 24 * labels + uneven(r)],
        ));
        if !r.odd(8) {
            let kind = if r.odd(6) { SHT_PROGBITS } else { SHT_STRTAB };
            parts.push(section(b".strtab", kind, 0, table));
        }
    }
    if r.odd(8) {
        let mut s = section(
            r.pick(SECTION_NAMES),
            r.pick(&[SHT_PROGBITS, SHT_STRTAB, SHT_NOBITS, SHT_NULL, 0x7000_0000]),
            r.pick(&[0, 2, 3]),
            vec![0; r.range(0, 24) as usize],
        );
        s.align = r.pick(&[1, 8]);
        s.nobits = s.data.len() as u64;
        if s.kind == SHT_NOBITS {
            s.data.clear();
        }
        let at = r.index(parts.len() + 1);
        parts.insert(at, s);
    }
    parts.push(section(b".shstrtab", SHT_STRTAB, 0, Vec::new()));
    if r.odd(20) {
        let (a, b) = (r.index(parts.len()), r.index(parts.len()));
        parts.swap(a, b);
    }
    sections.append(&mut parts);
    let names: Vec<&[u8]> = sections.iter().map(|s| s.name).collect();
    let (mut table, name_at) = strings(r, &names);
    for (s, at) in sections.iter_mut().zip(name_at) {
        s.name_at = at;
    }
    if beyond.open_names {
        let at = end_open(r, &mut table, 16);
        if r.one_in(4) {
            let named = r.index(sections.len());
            sections[named].name_at = at;
        }
    }
    let shstrndx = sections
        .iter()
        .position(|s| s.name == b".shstrtab")
        .unwrap();
    sections[shstrndx].data = table;

    // where they stand
    // program headers over one another that map the text differently: which of them version 2's
    // relocations use depends on the one used before
    let quilt = plan.version2 && plan.relocations + plan.relas > 0 && r.one_in(5);
    let ph_count = match r.below(10) {
        _ if quilt => 4,
        // version 2 needs them for every relocation
        0 if !plan.version2 || r.odd(2) => 0,
        1 if !plan.version2 => 0,
        2 if style != Style::Small => {
            if r.odd(2) {
                r.range(10, 11)
            } else {
                r.range(8, 9)
            }
        }
        _ if style == Style::Small => r.range(0, 1) + plan.version2 as u64,
        _ => r.range(1, 4),
    };
    let ph_first = !r.one_in(5);
    let sh_first = r.one_in(8);
    let up = |at: u64, align: u64| (at + align - 1) / align * align;
    let mut at = 64;
    let (mut phoff, mut shoff) = (64, 64);
    if ph_first {
        phoff = at;
        at += 56 * ph_count;
    }
    if sh_first {
        shoff = at;
        at += 64 * sections.len() as u64;
    }
    for s in sections.iter_mut() {
        if s.kind == SHT_NULL && s.data.is_empty() && s.name.is_empty() {
            continue;
        }
        at = up(at, if r.odd(40) { 1 } else { s.align });
        s.at = at;
        if s.kind != SHT_NOBITS {
            at += s.data.len() as u64;
        }
    }
    if !ph_first {
        at = up(at, if r.odd(20) { 1 } else { 8 });
        phoff = at;
        at += 56 * ph_count;
    }
    if !sh_first {
        at = up(at, if r.odd(20) { 1 } else { 8 });
        shoff = at;
        at += 64 * sections.len() as u64;
    }
    let len = at + if r.one_in(10) { r.below(40) } else { 0 };

    // and in memory
    let text_part = sections.iter().find(|s| s.name == b".text").unwrap();
    let base = match base {
        Base::At(base) => base,
        Base::TextStarts(addr) => addr.wrapping_sub(text_part.at),
        Base::TextEnds(addr) => addr.wrapping_sub(text_part.at + text_part.size()),
    };
    // read-only sections anywhere, over one another too: a later copy overwrites
    let scattered = moved && r.one_in(3);
    let stacked = moved && r.one_in(4);
    let text_addr = base.wrapping_add(text_part.at);
    for s in sections.iter_mut() {
        if s.kind == SHT_NULL && s.at == 0 {
            continue;
        }
        s.addr = base.wrapping_add(s.at);
        if r.odd(20) {
            s.addr = r.pick(&[s.at, s.addr.wrapping_add(8), s.addr.wrapping_sub(1), 0]);
        }
        if scattered && READ_ONLY.contains(&s.name) {
            s.addr = base.wrapping_add(r.below(len));
        }
        if stacked && READ_ONLY.contains(&s.name) {
            s.addr = text_addr;
        }
    }
    if moved && r.one_in(6) {
        // one so far behind the others that a copy of all just has the file's length, or just not
        let parts: Vec<usize> = (0..sections.len())
            .filter(|k| READ_ONLY.contains(&sections[*k].name))
            .collect();
        let last = r.pick(&parts);
        let others = parts.iter().filter(|k| **k != last);
        let lowest = others.map(|k| sections[*k].addr).min().unwrap_or(0);
        let lowest = if r.one_in(3) { 0 } else { lowest };
        let end = lowest.wrapping_add(len).wrapping_add(r.pick(&[0, 0, 1]));
        sections[last].addr = end.wrapping_sub(sections[last].size());
    }

    // what the tables hold
    let find = |sections: &[Section], name: &[u8]| sections.iter().position(|s| s.name == name);
    let text_index = find(&sections, b".text").unwrap();
    let (text_at, text_addr, text_size) = (
        sections[text_index].at,
        sections[text_index].addr,
        sections[text_index].size(),
    );
    if let Some(i) = find(&sections, b".dynsym") {
        let table = symbol_table(r, plan.symbols, &dynamic_names, text_addr, text_size);
        if table.len() <= sections[i].data.len() {
            sections[i].data[..table.len()].copy_from_slice(&table);
        }
    }
    if let Some(i) = find(&sections, b".hash") {
        let symbols = &sections[find(&sections, b".dynsym").unwrap()].data;
        let names = &sections[find(&sections, b".dynstr").unwrap()].data;
        sections[i].data = hash_table(r, buckets, &symbol_names(symbols, names));
    }
    if let Some(i) = find(&sections, b".symtab") {
        let table = symbol_table(r, labels, &label_names, text_addr, text_size);
        if table.len() <= sections[i].data.len() {
            sections[i].data[..table.len()].copy_from_slice(&table);
            // most are functions, so that labels are met
            for k in 0..labels {
                if !r.one_in(3) {
                    sections[i].data[24 * k + 4] = r.pick(&[0x12, 0x02]);
                }
            }
        }
    }
    if let Some(i) = find(&sections, b".rel.dyn") {
        let data = find(&sections, b".rodata")
            .or(find(&sections, b".data.rel.ro"))
            .unwrap_or(text_index);
        let (data_at, data_size) = (sections[data].at, sections[data].size());
        let mut last = text_at;
        let mut relocation = |r: &mut Random| {
            let kind = if r.odd(24) {
                r.pick(&[0, 2, 9, 11, 0xffff_ffff])
            } else {
                r.pick(&[1, 8, 10])
            };
            let place = match r.below(12) {
                _ if r.odd(10) => r.below(len + 16),
                _ if r.odd(10) => text_at + text_size - text_size.min(r.range(1, 16)),
                0 => last,
                1 => last + r.pick(&[4, 8, 1, 12]),
                2 | 3 | 4 => data_at + 8 * r.below((data_size / 8).max(1)),
                // a load whose halves are not both 0, so that type 8 has something to place
                _ if kind == 8 && !loads.is_empty() => text_at + r.pick(&loads),
                _ if kind == 8 && data != text_index => data_at,
                _ => text_at + 8 * r.below((text_size / 8).max(1)),
            };
            last = place;
            let r_offset = match () {
                // where the last header of a quilt lies
                _ if quilt && r.odd(12) => u64::MAX - r.pick(&[0, 0, 1, 1, 8, 16]),
                _ if r.odd(30) => r.pick(&[u64::MAX, u64::MAX - 1, 0, len]),
                _ if plan.version2 => place.wrapping_add(base),
                _ => place,
            };
            let symbol = if r.odd(12) {
                r.pick(&[plan.symbols as u64, u32::MAX as u64])
            } else {
                r.below((plan.symbols as u64).max(1))
            };
            [r_offset.to_le_bytes(), (symbol << 32 | kind).to_le_bytes()].concat()
        };
        let older: Vec<Vec<u8>> = (0..plan.relocations).map(|_| relocation(r)).collect();
        let newer: Vec<Vec<u8>> = (0..plan.relas)
            .map(|_| {
                let two = relocation(r);
                [two, addend(r, text_addr).to_le_bytes().to_vec()].concat()
            })
            .collect();
        sections[i].data = older.concat();
        if drawn {
            let k = find(&sections, b".rela.dyn").unwrap();
            sections[k].data = newer.concat();
        }
    }
    if let Some(i) = find(&sections, b".dynamic") {
        let rel = find(&sections, b".rel.dyn").unwrap();
        let symbols = find(&sections, b".dynsym").unwrap();
        let mut entries = Vec::new();
        if plan.relocations > 0 || r.odd(4) {
            entries.push((17, sections[rel].addr));
            entries.push((18, sections[rel].size()));
            entries.push((19, if r.odd(30) { 24 } else { 16 }));
        }
        if drawn && (plan.relas > 0 || r.odd(4)) {
            // seldom the older ones' place, or another size
            let table = if r.odd(20) {
                b".rel.dyn"
            } else {
                &b".rela.dyn"[..]
            };
            let table = &sections[find(&sections, table).unwrap()];
            let size = match r.odd(20) {
                true => r.pick(&[0, 8, 16, 24, 48]),
                false => table.size(),
            };
            entries.push((7, table.addr));
            entries.push((8, size));
            let entry = r.pick(&[16, 0, 24 + (1 << 32), 25]);
            entries.push((9, if r.odd(30) { entry } else { 24 }));
        }
        if !r.odd(8) {
            entries.push((6, sections[symbols].addr));
        }
        if let Some(k) = find(&sections, b".hash") {
            if !r.odd(8) {
                entries.push((4, sections[k].addr));
            }
        }
        if r.one_in(3) {
            entries.push((r.pick(&[5, 34, 35, 36, u64::MAX, 1]), r.next()));
        }
        if r.odd(12) && !entries.is_empty() {
            let again = r.pick(&entries);
            entries.push((
                again.0,
                if r.one_in(2) {
                    again.1
                } else {
                    r.pick(&[0, 8, u64::MAX, len])
                },
            ));
        }
        if r.one_in(3) {
            let (a, b) = (r.index(entries.len().max(1)), r.index(entries.len().max(1)));
            if !entries.is_empty() {
                entries.swap(a, b);
            }
        }
        if r.odd(20) {
            let at = r.index(entries.len() + 1);
            entries.insert(at, (0, 0));
        }
        let room = sections[i].data.len() / 16;
        entries.truncate(room);
        let data = &mut sections[i].data;
        for (k, (tag, value)) in entries.iter().enumerate() {
            put(data, 16 * k as u64, *tag, 8);
            put(data, 16 * k as u64 + 8, *value, 8);
        }
    }

    // the file
    let mut bytes = vec![0; len as usize];
    bytes[..16].copy_from_slice(b"\x7fELF\x02\x01\x01\0\0\0\0\0\0\0\0\0");
    put(&mut bytes, 16, 3, 2);
    put(&mut bytes, 18, r.pick(&[247, 263]), 2);
    put(&mut bytes, 20, 1, 4);
    let entry = match r.odd(5) {
        true => match r.below(4) {
            3 => text_addr.wrapping_add(text_size).wrapping_sub(1),
            0 => text_addr.wrapping_add(text_size),
            1 => text_addr.wrapping_add(r.below(text_size + 1)),
            _ => text_addr.wrapping_sub(1),
        },
        false => text_addr.wrapping_add(8 * r.below((text_size / 8).max(1))),
    };
    put(&mut bytes, 24, entry, 8);
    put(&mut bytes, 32, phoff, 8);
    put(&mut bytes, 40, shoff, 8);
    put(
        &mut bytes,
        48,
        if plan.version2 {
            0x20
        } else {
            r.pick(&[0, 0, 0, 1, 0x21])
        },
        4,
    );
    put(&mut bytes, 52, 64, 2);
    put(&mut bytes, 54, 56, 2);
    put(&mut bytes, 56, ph_count, 2);
    put(&mut bytes, 58, 64, 2);
    put(&mut bytes, 60, sections.len() as u64, 2);
    put(
        &mut bytes,
        62,
        if r.odd(80) { 0 } else { shstrndx as u64 },
        2,
    );
    let dynamic_at = find(&sections, b".dynamic");
    let mut vaddrs = Vec::new();
    for k in 0..ph_count {
        let at = phoff + 56 * k;
        if quilt {
            // the first two cover parts of the text that overlap, from elsewhere in the file; then
            // all of the file; then the end of all addresses. Only one is loaded, so that no order
            // is asked for.
            let third = text_size / 24 * 8;
            let shift = |r: &mut Random, from: u64| match () {
                _ if r.odd(8) => u64::MAX - r.below(16),
                _ => from.wrapping_add(r.pick(&[0, 8, 16, 0u64.wrapping_sub(8)])),
            };
            let (kind, from, vaddr, memory) = match k {
                0 => (6, shift(r, text_at), base.wrapping_add(text_at), 2 * third),
                1 => {
                    let at = text_at + third;
                    (6, shift(r, at), base.wrapping_add(at), text_size - third)
                }
                2 => (1, 0, base, len),
                _ => {
                    let before = 8 * r.range(1, 3);
                    let memory = r.pick(&[u64::MAX, before + 1, before, before - 1]);
                    (6, text_at, u64::MAX - before, memory)
                }
            };
            header(&mut bytes, at, kind, from, vaddr, memory.min(len), memory);
            continue;
        }
        let is_dynamic = dynamic_at.is_some() && r.one_in(4);
        let (kind, from, size) = if is_dynamic {
            let s = &sections[dynamic_at.unwrap()];
            match if r.odd(1) { r.below(8) } else { 7 } {
                0 => (2, s.at + 1, s.size()),
                1 => (2, s.at, s.size() + 1),
                2 => (2, s.at, 0),
                3 => (2, len, 16),
                _ => (2, s.at, s.size()),
            }
        } else {
            let kind = r.pick(&[1, 1, 1, 1, 6, 0x6474_e551]);
            match if k == 0 && !r.odd(2) { 0 } else { r.below(4) } {
                // all of it, from the text on, one section
                0 => (kind, 0, len),
                1 => (kind, text_at, len - text_at),
                _ => {
                    let s = &sections[r.index(sections.len())];
                    (kind, s.at, if s.kind == SHT_NOBITS { 0 } else { s.size() })
                }
            }
        };
        let mut vaddr = base.wrapping_add(from);
        if r.odd(15) {
            vaddr = r.pick(&[from, 0, u64::MAX, STACK_START, vaddr.wrapping_add(8)]);
        }
        let mut from = from;
        if k > 0 && r.odd(4) {
            // over another header, but from elsewhere in the file: which of them is used shows
            from = match r.below(3) {
                0 => from.wrapping_add(r.pick(&[8, 16, 24])),
                1 => from.saturating_sub(r.pick(&[8, 16, 24])),
                _ if kind == 1 => text_at,
                _ => u64::MAX - r.below(64),
            };
            if kind == 1 {
                from = from.min(len.saturating_sub(size));
            }
        }
        vaddrs.push(vaddr);
        let memory = if r.odd(15) {
            r.pick(&[u64::MAX, 0, 1, size + 8])
        } else {
            size
        };
        header(&mut bytes, at, kind, from, vaddr, size, memory);
    }
    if !quilt && !r.odd(10) {
        // ascending, as the checks ask for
        let mut order: Vec<usize> = (0..ph_count as usize).collect();
        order.sort_by_key(|k| vaddrs[*k]);
        let old = bytes.clone();
        for (to, from) in order.iter().enumerate() {
            let (to, from) = (
                (phoff + 56 * to as u64) as usize,
                (phoff + 56 * *from as u64) as usize,
            );
            bytes[to..to + 56].copy_from_slice(&old[from..from + 56]);
        }
    }
    for (k, s) in sections.iter().enumerate() {
        let at = shoff + 64 * k as u64;
        put(&mut bytes, at, s.name_at as u64, 4);
        put(&mut bytes, at + 4, s.kind as u64, 4);
        put(&mut bytes, at + 8, s.flags, 8);
        put(&mut bytes, at + 16, s.addr, 8);
        put(&mut bytes, at + 24, s.at, 8);
        put(&mut bytes, at + 32, s.size(), 8);
        put(&mut bytes, at + 48, s.align, 8);
        if s.kind != SHT_NOBITS {
            bytes[s.at as usize..s.at as usize + s.data.len()].copy_from_slice(&s.data);
        }
    }
    Made {
        bytes,
        version2,
        moved,
    }
}
