//! Files of a given size and number of functions, for measuring. Plain: one text that calls each
//! function four times from places all over it, and a label for each function. Files full of relocations. And files
//! whose functions call each other in a way that is given.

use crate::{
    elf::{put, PROGRAM_START},
    random::Random,
};

const TEXT_AT: usize = 64;

/// The next multiple of 8.
fn up(n: usize) -> usize {
    n.div_ceil(8) * 8
}

/// What is added to file offsets to make addresses.
fn base(version2: bool) -> u64 {
    match version2 {
        true => PROGRAM_START,
        false => 0,
    }
}

/// A file of `size` bytes. Its first slot is the entry; the functions stand evenly behind it.
pub fn file(size: usize, functions: usize, version2: bool) -> Vec<u8> {
    let r = &mut Random::new(7, size as u64 + functions as u64);
    let names: Vec<String> = (0..functions).map(|k| format!("f{k:x}")).collect();
    let mut strings = vec![0];
    let mut name_at = Vec::new();
    for name in &names {
        name_at.push(strings.len());
        strings.extend_from_slice(name.as_bytes());
        strings.push(0);
    }
    let section_names = b"\0.text\0.symtab\0.strtab\0.shstrtab\0";
    let tables = up(24 * functions) + up(strings.len()) + up(section_names.len()) + 5 * 64;
    let slots = (size - TEXT_AT - tables) / 8;

    // calls from slots all over, each to a function drawn: first meetings come in any order
    let mut text = vec![[0xb7, 0x01, 0, 0, 1, 0, 0, 0]; slots];
    let target = |k: usize| 1 + k * (slots - 1) / functions.max(1);
    let calls = (4 * functions).min(slots * 3 / 4);
    for k in 0..calls {
        // each function at least once
        let to = if k < functions { k } else { r.index(functions) };
        // a call of its own slot would have the immediate -1, which is no local call
        let mut at = r.index(slots);
        while text[at][0] == 0x85 || at == target(to) {
            at = (at + 1) % slots;
        }
        let immediate = (target(to) as i64 - at as i64 - 1) as i32;
        text[at] = [0x85, 0x10, 0, 0, 0, 0, 0, 0];
        text[at][4..].copy_from_slice(&immediate.to_le_bytes());
    }
    let text: Vec<u8> = text.concat();

    let mut symbols = Vec::new();
    for (k, at) in name_at.iter().enumerate() {
        symbols.extend_from_slice(&(*at as u32).to_le_bytes());
        symbols.extend_from_slice(&[0x12, 0, 1, 0]);
        let value = base(version2) + (TEXT_AT + 8 * target(k)) as u64;
        symbols.extend_from_slice(&value.to_le_bytes());
        symbols.extend_from_slice(&[0; 8]);
    }

    let parts = [
        (1, 1, &text[..]),
        (7, 2, &symbols),
        (15, 3, &strings),
        (23, 3, section_names),
    ];
    assembled(size, version2, &parts, 0)
}

/// A file of `size` bytes with so many relocations of type 8, which bring an addend or not: each of a load
/// of 64 bits in the text, which they fill.
pub fn relocated(size: usize, count: usize, version2: bool, addends: bool) -> Vec<u8> {
    let mut load = [0; 16];
    (load[0], load[4]) = (0x18, 8);
    let text = load.repeat(count);
    let width = if addends { 24 } else { 16 };
    let mut table = vec![0; width * count];
    for (k, entry) in table.chunks_exact_mut(width).enumerate() {
        put(entry, 0, base(version2) + (TEXT_AT + 16 * k) as u64, 8);
        put(entry, 8, 8, 8);
        if addends {
            put(entry, 16, 8, 8);
        }
    }
    let tag = if addends { 7 } else { 17 };
    let address = base(version2) + (TEXT_AT + text.len()) as u64;
    let mut dynamic = vec![0; 3 * 16];
    for (k, value) in [address, table.len() as u64, width as u64]
        .iter()
        .enumerate()
    {
        put(&mut dynamic, 16 * k as u64, tag + k as u64, 8);
        put(&mut dynamic, 16 * k as u64 + 8, *value, 8);
    }
    let parts = [
        (1, 1, &text[..]),
        (7, if addends { 4 } else { 9 }, &table),
        (16, 6, &dynamic),
        (25, 3, b"\0.text\0.rel.dyn\0.dynamic\0.shstrtab\0"),
    ];
    assembled(size, version2, &parts, 1)
}

/// Which functions each function calls. The first is the entry.
pub type Graph = Vec<Vec<usize>>;

/// The entry calls all of the first of `levels - 1` levels, and each function four of the next level, so that all of
/// that are called.
pub fn levels(functions: usize, levels: usize) -> Graph {
    let r = &mut Random::new(5, functions as u64);
    let level = |k: usize| 1 + (k - 1) * (levels - 1) / (functions - 1);
    let members = |l: usize| -> Vec<usize> { (1..functions).filter(|k| level(*k) == l).collect() };
    let mut graph = vec![members(1)];
    for l in 1..levels {
        let (here, next) = (members(l).len(), members(l + 1));
        for j in 0..here {
            let mut to: Vec<usize> = next.iter().skip(j).step_by(here).copied().collect();
            while to.len() < 4 && !next.is_empty() {
                to.push(next[r.index(next.len())]);
            }
            graph.push(to);
        }
    }
    graph
}

/// Each function calls the next. The last calls the one before it, or none.
pub fn chain(functions: usize, circle: bool) -> Graph {
    (0..functions)
        .map(|k| match k + 1 < functions {
            true => vec![k + 1],
            false if circle => vec![k - 1],
            false => Vec::new(),
        })
        .collect()
}

/// A file of `size` bytes whose functions call each other as `graph` says, and stand in its order, or the other way
/// round, so that what is called stands before its caller.
pub fn calling(size: usize, graph: &Graph, called_first: bool, version2: bool) -> Vec<u8> {
    let calls: usize = graph.iter().map(Vec::len).sum();
    let slots = (size - TEXT_AT - 5 * 64) / 8;
    let spare = (slots - calls) / graph.len();
    let mut order: Vec<usize> = (0..graph.len()).collect();
    if called_first {
        order.reverse();
    }
    let mut starts = vec![0; graph.len()];
    let mut at = 0;
    for f in &order {
        starts[*f] = at;
        at += graph[*f].len() + spare;
    }
    let mut text = vec![[0xb7, 0x01, 0, 0, 1, 0, 0, 0]; at];
    for (f, to) in graph.iter().enumerate() {
        for (k, g) in to.iter().enumerate() {
            // evenly among the function's slots
            let at = starts[f] + (k + 1) * (to.len() + spare) / (to.len() + 1);
            let immediate = (starts[*g] as i64 - at as i64 - 1) as i32;
            text[at] = [0x85, 0x10, 0, 0, 0, 0, 0, 0];
            text[at][4..].copy_from_slice(&immediate.to_le_bytes());
        }
    }
    let text = text.concat();
    let parts = [(1, 1, &text[..]), (7, 3, b"\0.text\0.shstrtab\0")];
    let mut file = assembled(size, version2, &parts, 0);
    let entry = base(version2) + (TEXT_AT + 8 * starts[0]) as u64;
    put(&mut file, 24, entry, 8);
    file
}

/// The file of these sections: where a name starts in the last of them, type and bytes. The first is the text,
/// and the entry its first slot. The program headers, as many as asked for, hold the whole file.
fn assembled(size: usize, version2: bool, parts: &[(u64, u64, &[u8])], segments: u64) -> Vec<u8> {
    let base = base(version2);
    let mut bytes = vec![0; size];
    let mut headers = vec![[0u64; 4]];
    let mut at = TEXT_AT;
    for (name, kind, part) in parts {
        at = up(at);
        bytes[at..at + part.len()].copy_from_slice(part);
        headers.push([*name, *kind, at as u64, part.len() as u64]);
        at += part.len();
    }
    let table = up(at) as u64;
    for (k, [name, kind, at, length]) in headers.iter().enumerate() {
        let header = table + 64 * k as u64;
        put(&mut bytes, header, *name, 4);
        put(&mut bytes, header + 4, *kind, 4);
        if *kind != 0 {
            put(&mut bytes, header + 16, base + at, 8);
        }
        put(&mut bytes, header + 24, *at, 8);
        put(&mut bytes, header + 32, *length, 8);
    }
    let behind = table + 64 * headers.len() as u64;
    for k in 0..segments {
        let header = behind + 56 * k;
        put(&mut bytes, header, 1, 4);
        put(&mut bytes, header + 16, base, 8);
        put(&mut bytes, header + 32, size as u64, 8);
        put(&mut bytes, header + 40, size as u64, 8);
    }
    bytes[..16].copy_from_slice(b"\x7fELF\x02\x01\x01\0\0\0\0\0\0\0\0\0");
    for (at, value) in [
        (16, 3),
        (18, 263),
        (20, 1),
        (48, if version2 { 0x20 } else { 0 }),
        (52, 64),
        (54, 56),
        (56, segments),
        (58, 64),
        (60, headers.len() as u64),
        (62, parts.len() as u64),
    ] {
        put(&mut bytes, at, value, 2);
    }
    let phoff = if segments > 0 { behind } else { 64 };
    for (at, value) in [(24, base + TEXT_AT as u64), (32, phoff), (40, table)] {
        put(&mut bytes, at, value, 8);
    }
    bytes
}
