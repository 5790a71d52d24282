//! The dynamic table, read apart from the Rust: its own reading is private, and does not look at the tables
//! of relocations that bring an addend (tags 7, 8 and 9). Files without them hold this against the Rust.

use crate::{compare::Placed, elf::put, outcome};
use rbpf::elf_parser::Elf64;
use std::ops::Range;

const PT_DYNAMIC: u64 = 2;
const SHT_DYNAMIC: u64 = 6;
/// A segment's and a section's type that no check looks at.
const PT_NOTE: u64 = 4;
const SHT_PROGBITS: u64 = 1;

const DT_HASH: usize = 4;
const DT_SYMTAB: usize = 6;
const DT_RELA: usize = 7;
const DT_REL: usize = 17;

/// Offset and number of the entries of a table, zeros where there is none.
pub type Table = (u64, u64);

/// What the dynamic table leads to.
#[derive(Clone, Copy, Debug, Default, PartialEq, Eq)]
pub struct Linked {
    pub relocations: Table,
    /// Those that bring an addend.
    pub relas: Table,
    pub symbols: Table,
}

/// The number of `width` bytes at a place that lies in the file.
pub fn get(file: &[u8], at: u64, width: usize) -> u64 {
    let mut bytes = [0; 8];
    bytes[..width].copy_from_slice(&file[at as usize..at as usize + width]);
    u64::from_le_bytes(bytes)
}

/// Where the program headers and the section headers start.
fn headers(file: &[u8]) -> (Vec<u64>, Vec<u64>) {
    let (phoff, shoff) = (get(file, 32, 8), get(file, 40, 8));
    let segments = (0..get(file, 56, 2)).map(|k| phoff + 56 * k).collect();
    let sections = (0..get(file, 60, 2)).map(|k| shoff + 64 * k).collect();
    (segments, sections)
}

/// The header tables lie in the file, whatever else is wrong with it.
fn has_headers(file: &[u8]) -> bool {
    let within = |at: u64, n: u64| {
        at.checked_add(n)
            .is_some_and(|end| end <= file.len() as u64)
    };
    file.len() >= 64
        && within(get(file, 32, 8), 56 * get(file, 56, 2))
        && within(get(file, 40, 8), 64 * get(file, 60, 2))
}

/// The same file, aligned, with no header that leads to a dynamic table. What a parse says before it comes to
/// that table, the Rust says of this one too.
pub fn without(file: &[u8]) -> Placed {
    let mut bytes = file.to_vec();
    if has_headers(file) {
        let (segments, sections) = headers(file);
        for at in segments {
            // one that overlaps the file header is refused with it, and that must stay as it is
            if at >= 64 && get(file, at, 4) == PT_DYNAMIC {
                put(&mut bytes, at, PT_NOTE, 4);
            }
        }
        for at in sections {
            if at >= 64 && get(file, at + 4, 4) == SHT_DYNAMIC {
                put(&mut bytes, at + 4, SHT_PROGBITS, 4);
            }
        }
    }
    let mut placed = Placed::new();
    placed.put(&bytes, 0);
    placed
}

/// Entries of `width` bytes that fill a range of the file.
fn slice(file: &[u8], offset: u64, size: u64, width: u64) -> Result<Table, u32> {
    let end = offset.checked_add(size).ok_or(5u32)?;
    if size % width != 0 {
        return Err(6);
    }
    if end > file.len() as u64 {
        return Err(5);
    }
    if offset % 8 != 0 {
        return Err(11);
    }
    Ok((offset, size / width))
}

/// Where the dynamic table stands.
pub fn table(file: &[u8]) -> Result<Table, u32> {
    let (segments, sections) = headers(file);
    let segment = segments.iter().find(|at| get(file, **at, 4) == PT_DYNAMIC);
    if let Some(at) = segment {
        if let Ok(found) = slice(file, get(file, at + 8, 8), get(file, at + 32, 8), 16) {
            return Ok(found);
        }
    }
    match sections
        .iter()
        .find(|at| get(file, **at + 4, 4) == SHT_DYNAMIC)
    {
        Some(at) => slice(file, get(file, at + 24, 8), get(file, at + 32, 8), 16).map_err(|_| 10),
        None => Ok((0, 0)),
    }
}

fn values(file: &[u8], (at, count): Table) -> [u64; 35] {
    let mut values = [0; 35];
    for k in 0..count {
        let tag = get(file, at + 16 * k, 8);
        if tag == 0 {
            break;
        }
        if let Some(value) = values.get_mut(tag as usize) {
            *value = get(file, at + 16 * k + 8, 8);
        }
    }
    values
}

/// Where an address stands in the file: by the first program header that contains it, else by the first
/// section header that has it.
pub fn locate(file: &[u8], vaddr: u64) -> Result<Option<u64>, u32> {
    let (segments, sections) = headers(file);
    for at in segments {
        let (from, memory) = (get(file, at + 16, 8), get(file, at + 40, 8));
        let end = from.checked_add(memory).ok_or(5u32)?;
        if from <= vaddr && vaddr < end {
            let offset = (vaddr - from).checked_add(get(file, at + 8, 8));
            return offset.map(Some).ok_or(5);
        }
    }
    let section = sections.iter().find(|at| get(file, **at + 16, 8) == vaddr);
    Ok(section.map(|at| get(file, at + 24, 8)))
}

/// A table of relocations, by the values of its three tags.
fn relocations(file: &[u8], [vaddr, size, entry]: [u64; 3], width: u64) -> Result<Table, u32> {
    if vaddr == 0 {
        return Ok((0, 0));
    }
    if entry != width || size == 0 {
        return Err(10);
    }
    let offset = locate(file, vaddr)?.ok_or(10u32)?;
    offset.checked_add(size).ok_or(5u32)?;
    slice(file, offset, size, width).map_err(|_| 10)
}

fn symbols(file: &[u8], vaddr: u64) -> Result<Table, u32> {
    if vaddr == 0 {
        return Ok((0, 0));
    }
    let (_, sections) = headers(file);
    let at = sections.iter().find(|at| get(file, **at + 16, 8) == vaddr);
    let at = at.ok_or(10u32)?;
    if ![2, 11].contains(&get(file, at + 4, 4)) {
        return Err(3);
    }
    slice(file, get(file, at + 24, 8), get(file, at + 32, 8), 24)
}

/// The values of the dynamic table of a file that a parse accepts up to there.
fn values_of(file: &[u8]) -> Result<[u64; 35], u32> {
    table(file).map(|table| values(file, table))
}

/// What the dynamic table leads to, or the number of the refusal, of a file that a parse accepts up to
/// there.
pub fn linked(file: &[u8]) -> Result<Linked, u32> {
    let values = values_of(file)?;
    let three = |tag: usize| [values[tag], values[tag + 1], values[tag + 2]];
    Ok(Linked {
        relocations: relocations(file, three(DT_REL), 16)?,
        relas: relocations(file, three(DT_RELA), 24)?,
        symbols: symbols(file, values[DT_SYMTAB])?,
    })
}

/// The address of the hash table, 0 where there is none, of a file that a parse accepts up to the
/// dynamic table.
pub fn hash_table(file: &[u8]) -> u64 {
    values_of(file).map_or(0, |values| values[DT_HASH])
}

/// Whether the file, aligned to 16, has relocations that bring an addend, or would have them: a parse
/// comes to its dynamic table, and finds an address under tag 7.
pub fn has_relas(file: &[u8]) -> bool {
    Elf64::parse(without(file).bytes()).is_ok() && values_of(file).is_ok_and(|v| v[DT_RELA] != 0)
}

/// The relocations of both tables in the order in which they are applied: place, type with symbol, and the
/// addend of those that bring one.
pub fn both(file: &[u8], linked: &Linked) -> Vec<(u64, u64, Option<u64>)> {
    let older = (0..linked.relocations.1).map(|k| linked.relocations.0 + 16 * k);
    let newer = (0..linked.relas.1).map(|k| linked.relas.0 + 24 * k);
    let two = |at: u64| (get(file, at, 8), get(file, at + 8, 8));
    older
        .map(|at| (two(at).0, two(at).1, None))
        .chain(newer.map(|at| (two(at).0, two(at).1, Some(get(file, at + 16, 8)))))
        .collect()
}

/// From a relocation's `r_offset` to its place in the file, one after another.
pub struct Mapping {
    version2: bool,
    /// The addresses and the offset of each program header.
    headers: Vec<(Range<u64>, u64)>,
    used: Option<usize>,
}

impl Mapping {
    /// Of a file that a parse accepts up to its dynamic table.
    pub fn new(file: &[u8], version2: bool) -> Mapping {
        let header = |at: u64| {
            let vaddr = get(file, at + 16, 8);
            let end = vaddr.saturating_add(get(file, at + 40, 8));
            (vaddr..end, get(file, at + 8, 8))
        };
        Mapping {
            version2,
            headers: headers(file).0.into_iter().map(header).collect(),
            used: None,
        }
    }

    /// Version 1 has the place itself. In version 2 it is by the header used last if that contains the address,
    /// else by the first that does; none where no header does.
    pub fn place(&mut self, r_offset: u64) -> Option<u64> {
        if !self.version2 {
            return Some(r_offset);
        }
        let contains = |k: &usize| self.headers[*k].0.contains(&r_offset);
        self.used = self
            .used
            .filter(contains)
            .or_else(|| (0..self.headers.len()).find(contains));
        let (addresses, offset) = &self.headers[self.used?];
        Some((r_offset - addresses.start).saturating_add(*offset))
    }
}

/// The number that a parse gives of a file, 0 where it accepts it; of a file without relocations that bring
/// an addend, as the Rust.
pub fn parse_number(file: &[u8]) -> u32 {
    match Elf64::parse(without(file).bytes()) {
        Err(err) => outcome::parser_number(&err),
        Ok(_) => linked(file).err().unwrap_or(0),
    }
}
