//! Damage: fields set to values around which checks turn, headers moved, bytes and lengths changed.

use crate::{
    elf::{Addends, Beyond},
    random::Random,
};

fn get(file: &[u8], at: u64, width: usize) -> u64 {
    let mut bytes = [0; 8];
    for (k, b) in bytes.iter_mut().enumerate().take(width) {
        *b = at
            .checked_add(k as u64)
            .and_then(|at| file.get(at as usize))
            .copied()
            .unwrap_or(0);
    }
    u64::from_le_bytes(bytes)
}

fn set(file: &mut [u8], at: u64, value: u64, width: usize) {
    for (k, b) in value.to_le_bytes().iter().enumerate().take(width) {
        if let Some(place) = at
            .checked_add(k as u64)
            .and_then(|at| file.get_mut(at as usize))
        {
            *place = *b;
        }
    }
}

const EHDR: &[(u64, usize)] = &[
    (0, 4),
    (4, 1),
    (5, 1),
    (6, 1),
    (7, 1),
    (16, 2),
    (18, 2),
    (20, 4),
    (24, 8),
    (32, 8),
    (40, 8),
    (48, 4),
    (52, 2),
    (54, 2),
    (56, 2),
    (58, 2),
    (60, 2),
    (62, 2),
];
const PHDR: &[(u64, usize)] = &[(0, 4), (8, 8), (16, 8), (32, 8), (40, 8)];
const SHDR: &[(u64, usize)] = &[(0, 4), (4, 4), (8, 8), (16, 8), (24, 8), (32, 8)];
const SYM: &[(u64, usize)] = &[(0, 4), (4, 1), (8, 8)];
const DYN: &[(u64, usize)] = &[(0, 8), (8, 8)];
const REL: &[(u64, usize)] = &[(0, 8), (8, 4), (12, 4)];
const RELA: &[(u64, usize)] = &[(0, 8), (8, 4), (12, 4), (16, 8)];
/// A number of a hash table.
const NUMBER: &[(u64, usize)] = &[(0, 4)];
/// Opcode, registers and immediate of a slot.
const SLOT: &[(u64, usize)] = &[(0, 1), (1, 1), (4, 4)];

/// Where the tables of a file stand, as far as its header tells: start, size of an entry, number
/// of entries, fields. Relocations that bring an addend and hash tables are among them where the file was
/// made with them.
fn tables(file: &[u8], beyond: Beyond) -> Vec<(u64, u64, u64, &'static [(u64, usize)])> {
    let (phoff, phnum) = (get(file, 32, 8), get(file, 56, 2));
    let (shoff, shnum) = (get(file, 40, 8), get(file, 60, 2));
    let mut all = vec![
        (0, 64, 1, EHDR),
        (phoff, 56, phnum, PHDR),
        (shoff, 64, shnum, SHDR),
    ];
    for k in 0..shnum.min(32) {
        let header = shoff.wrapping_add(64 * k);
        let (kind, at, size) = (
            get(file, header.wrapping_add(4), 4),
            get(file, header.wrapping_add(24), 8),
            get(file, header.wrapping_add(32), 8),
        );
        match kind {
            2 | 11 => all.push((at, 24, size / 24, SYM)),
            6 => all.push((at, 16, size / 16, DYN)),
            9 => all.push((at, 16, size / 16, REL)),
            4 if beyond.addends == Addends::Drawn => all.push((at, 24, size / 24, RELA)),
            5 if beyond.hash_table => all.push((at, 4, size / 4, NUMBER)),
            1 if get(file, header.wrapping_add(8), 8) & 4 != 0 => all.push((at, 8, size / 8, SLOT)),
            _ => {}
        }
    }
    all.retain(|(at, _, n, _)| *n > 0 && *at < file.len() as u64);
    all
}

/// A value near the old one, near a limit, or one that another field has.
fn value(r: &mut Random, file: &[u8], old: u64, beyond: Beyond) -> u64 {
    let len = file.len() as u64;
    match r.below(13) {
        12 => r.pick(&[
            0x85,
            0x18,
            0x10,
            0x12,
            10,
            u32::MAX as u64,
            0x8000_0000,
            9,
            0x20,
        ]),
        0 => old.wrapping_add(r.pick(&[1, 8, 16, 56, 64, 24, 4])),
        1 => old.wrapping_sub(r.pick(&[1, 8, 16, 56, 64, 24, 4])),
        2 => r.pick(&[0, 1, 2, 3, 6, 8, 11]),
        3 => len.wrapping_sub(r.below(80)),
        4 => len.wrapping_add(r.below(16)),
        5 => 0u64.wrapping_sub(r.below(80)),
        6 => 0u64.wrapping_sub(old).wrapping_sub(r.below(3)),
        7 => r.pick(&[0x1_0000_0000, 0x2_0000_0000]) + r.below(3) * 8 - 8,
        8 => r.below(len + 1),
        9 => old ^ 1 << r.below(64),
        10 => r.next(),
        _ => {
            let all = tables(file, beyond);
            if all.is_empty() {
                return 64;
            }
            let (at, size, n, fields) = r.pick(&all);
            let (field, width) = r.pick(fields);
            get(
                file,
                at.wrapping_add(size * r.below(n)).wrapping_add(field),
                width,
            )
        }
    }
}

/// One change.
fn change(r: &mut Random, file: &mut Vec<u8>, beyond: Beyond) {
    match r.below(20) {
        0 => {
            let n = r.index(file.len() + 1);
            file.truncate(n);
        }
        1 => {
            let n = r.below(80) as usize;
            file.resize(file.len() + n, 0);
        }
        2 => {
            // bytes anywhere
            for _ in 0..r.range(1, 4) {
                if !file.is_empty() {
                    let at = r.index(file.len());
                    file[at] = r.next() as u8;
                }
            }
        }
        3 => {
            // a zero byte of a name goes, or one comes
            if !file.is_empty() {
                let at = r.index(file.len());
                let from = file[at..]
                    .iter()
                    .position(|b| *b == 0)
                    .map_or(at, |k| at + k);
                file[from] = if r.one_in(2) { b'x' } else { 0xff };
            }
        }
        4 | 5 => {
            // two entries of a table change places, or one becomes the other
            let all = tables(file, beyond);
            if all.is_empty() {
                return;
            }
            let (at, size, n, _) = r.pick(&all);
            let (a, b) = (at + size * r.below(n), at + size * r.below(n));
            let (a, b, size) = (a as usize, b as usize, size as usize);
            if a + size <= file.len() && b + size <= file.len() {
                let (x, y) = (file[a..a + size].to_vec(), file[b..b + size].to_vec());
                file[a..a + size].copy_from_slice(&y);
                if r.one_in(2) {
                    file[b..b + size].copy_from_slice(&x);
                }
            }
        }
        _ => {
            let all = tables(file, beyond);
            if all.is_empty() {
                return;
            }
            let (at, size, n, fields) = r.pick(&all);
            let (field, width) = r.pick(fields);
            let place = at.wrapping_add(size * r.below(n)).wrapping_add(field);
            let new = value(r, file, get(file, place, width), beyond);
            set(file, place, new, width);
        }
    }
}

/// No damage, a little, or more; answers whether there is any.
pub fn damage(r: &mut Random, file: &mut Vec<u8>, beyond: Beyond) -> bool {
    let n = match r.below(10) {
        0..=3 => 0,
        4..=7 => 1,
        8 => 2,
        _ => r.range(3, 6),
    };
    for _ in 0..n {
        change(r, file, beyond);
    }
    if r.one_in(200) {
        let n = r.index(200);
        *file = (0..n).map(|_| r.next() as u8).collect();
        return true;
    }
    n > 0
}

/// Moves relocations to the last bytes of a file, on either side of its end. In version 2 the first
/// program header is made long enough to give that place an address.
pub fn relocate_end(r: &mut Random, file: &mut Vec<u8>, beyond: Beyond) -> bool {
    let mut address = (file.len() as u64).saturating_sub(r.below(20));
    if get(file, 48, 4) == 0x20 {
        let header = get(file, 32, 8);
        address = address
            .wrapping_sub(get(file, header + 8, 8))
            .wrapping_add(get(file, header + 16, 8));
        set(file, header + 40, 0x1_0000, 8);
    }
    for (at, size, n, fields) in tables(file, beyond) {
        if fields == REL || fields == RELA {
            set(file, at + size * r.below(n), address, 8);
        }
    }
    true
}
