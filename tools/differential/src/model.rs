//! A second implementation of a load's middle, from the scope: which functions are registered, in which
//! order, with which names, and what the relocations write. The Rust keeps no record of the order,
//! nor of moves and places of names, and has no limit of rows; those come from here. `expected`
//! holds every outcome of this against the Rust, so that the telling is tested itself.
//!
//! Reading the file is the Rust's own `Elf64` and `validate`, but for the dynamic table, which `dynamic` reads, since the
//! Rust passes over relocations that bring an addend; placing the read-only sections is left to the
//! Rust altogether.

use crate::{
    dynamic::{self, Mapping},
    elf::{PROGRAM_START, STACK_START},
    outcome::{self, ReadOnly},
    port::WORDS,
    writers::{Write, Writer},
    Settings,
};
use rbpf::{
    elf::Executable,
    elf_parser::{types::Elf64Shdr, Elf64},
    vm::TestContextObject,
};
use std::collections::BTreeMap;

/// Number, value, name start and name length of a refusal.
#[derive(Clone, Copy, Debug, PartialEq, Eq)]
pub struct Stop {
    pub number: u32,
    pub value: u64,
    pub start: u64,
    pub length: u64,
}

impl Stop {
    /// The refusal that the words of a load's answer are; words that are missing count as 0.
    pub fn told(loaded: &[u64]) -> Result<(), Stop> {
        let word = |k: usize| loaded.get(k).copied().unwrap_or(0);
        match word(0) as u32 {
            0 => Ok(()),
            number => Err(Stop {
                number,
                value: word(1),
                start: word(2),
                length: word(3),
            }),
        }
    }

    /// The words of an answer.
    pub fn words(&self) -> [u64; WORDS] {
        let mut words = [0; WORDS];
        words[..4].copy_from_slice(&[self.number as u64, self.value, self.start, self.length]);
        words
    }
}

fn stop(number: u32, value: u64) -> Stop {
    Stop {
        number,
        value,
        start: 0,
        length: 0,
    }
}

/// A refusal without a value.
pub fn only(number: u32) -> Stop {
    stop(number, 0)
}

#[derive(Clone, Debug, PartialEq, Eq)]
pub struct Row {
    pub index: u64,
    /// 0 empty, 1 part of the file, 2 the text entrypoint, 3 made from the index.
    pub kind: u32,
    pub start: u64,
    pub length: u64,
}

impl Row {
    /// The name that the row spells.
    pub fn name(&self, file: &[u8]) -> Vec<u8> {
        match self.kind {
            1 => file[self.start as usize..(self.start + self.length) as usize].to_vec(),
            2 => b"entrypoint".to_vec(),
            3 => format!("function_{}", self.index).into_bytes(),
            _ => Vec::new(),
        }
    }
}

/// What the load holds when the entry is registered.
#[derive(Clone, Debug)]
pub struct Replayed {
    pub version2: bool,
    pub entry: u64,
    pub image: Vec<u8>,
    pub rows: BTreeMap<u32, Row>,
    pub moves: u64,
    pub text_addr: u64,
    pub text_start: u64,
    pub text_length: u64,
    /// What each relocation of type 1 or 8 takes for its addend, and where the bytes stand that one
    /// without an addend reads.
    pub addends: Vec<Option<(u64, u64)>>,
    /// What was written to the image, in order.
    pub writes: Vec<Write>,
}

struct Table {
    rows: BTreeMap<u32, Row>,
    lent: usize,
    most: usize,
    moves: u64,
}

impl Table {
    fn larger(&self, key: u32) -> u64 {
        self.rows
            .range((
                std::ops::Bound::Excluded(key),
                std::ops::Bound::<u32>::Unbounded,
            ))
            .count() as u64
    }

    fn register(&mut self, key: u32, row: Row) -> Result<(), Stop> {
        if let Some(held) = self.rows.get(&key) {
            // a repeat keeps its first name and counts 0
            return if held.index == row.index {
                Ok(())
            } else {
                Err(stop(24, key as u64))
            };
        }
        if self.rows.len() >= self.lent {
            return Err(stop(43, self.lent as u64));
        }
        self.moves += self.larger(key);
        self.rows.insert(key, row);
        self.most = self.most.max(self.rows.len());
        Ok(())
    }

    fn forget(&mut self, key: u32) {
        if self.rows.contains_key(&key) {
            self.moves += self.larger(key);
            self.rows.remove(&key);
        }
    }
}

/// A name that a registration comes with.
enum Name<'a> {
    /// Made from the index.
    Call,
    /// In the file, with its place.
    Symbol(&'a [u8], u64),
    Entry,
}

/// What every registration looks at.
struct Rules<'a> {
    version2: bool,
    settings: Settings,
    builtins: &'a [u32],
}

impl Rules<'_> {
    fn is_builtin(&self, key: u32) -> bool {
        self.builtins.contains(&key)
    }

    /// Answers the key.
    fn register(&self, table: &mut Table, name: Name, index: u64) -> Result<u32, Stop> {
        let entrypoint = match name {
            Name::Call => false,
            Name::Symbol(bytes, _) => bytes == b"entrypoint",
            Name::Entry => true,
        };
        let key = match (self.version2, entrypoint) {
            (true, _) => index as u32,
            (false, true) => outcome::hash(b"entrypoint"),
            (false, false) => outcome::hash(&index.to_le_bytes()),
        };
        if !self.version2 && self.settings.collision_check && self.is_builtin(key) {
            return Err(stop(24, key as u64));
        }
        let (kind, start, length) = match name {
            Name::Entry => (2, 0, 10),
            Name::Call if self.settings.labels => (3, 0, 0),
            Name::Symbol(bytes, at)
                if !bytes.is_empty() && (self.settings.labels || entrypoint) =>
            {
                (1, at, bytes.len() as u64)
            }
            _ => (0, 0, 0),
        };
        table.register(
            key,
            Row {
                index,
                kind,
                start,
                length,
            },
        )?;
        Ok(key)
    }
}

fn read(image: &[u8], at: u64, width: u64) -> Result<u64, Stop> {
    let end = at.saturating_add(width);
    if end > image.len() as u64 || at > end {
        return Err(stop(33, 0));
    }
    let mut bytes = [0; 8];
    bytes[..width as usize].copy_from_slice(&image[at as usize..end as usize]);
    Ok(u64::from_le_bytes(bytes))
}

/// The image, and what was written to it.
struct Image {
    bytes: Vec<u8>,
    writes: Vec<Write>,
}

impl Image {
    fn read(&self, at: u64, width: u64) -> Result<u64, Stop> {
        read(&self.bytes, at, width)
    }

    fn write(&mut self, by: Writer, at: u64, value: u64, width: u64) -> Result<(), Stop> {
        self.read(at, width)?;
        self.bytes[at as usize..(at + width) as usize]
            .copy_from_slice(&value.to_le_bytes()[..width as usize]);
        self.writes.push((at, width, by));
        Ok(())
    }
}

/// An address below the program's start gains it.
fn placed(addr: u64) -> u64 {
    if addr < PROGRAM_START {
        PROGRAM_START + addr
    } else {
        addr
    }
}

fn place_of(file: &[u8], part: &[u8]) -> u64 {
    (part.as_ptr() as usize - file.as_ptr() as usize) as u64
}

/// The place of the section name for which a parse gives up: of the first that is not closed within 16 bytes
/// and its table. It has fewer than 16 bytes where the table ends before them.
pub fn unclosed_name(file: &[u8]) -> (u64, u64) {
    let field = |at: u64, width: u64| read(file, at, width).unwrap();
    let (table, count) = (field(40, 8), field(60, 2));
    let names = table + 64 * field(62, 2);
    let (at, end) = (
        field(names + 24, 8),
        field(names + 24, 8) + field(names + 32, 8),
    );
    for k in 0..count {
        let start = at + field(table + 64 * k, 4);
        let stop = end.min(start + 16);
        if !file[start as usize..stop as usize].contains(&0) {
            return (start, stop - start);
        }
    }
    panic!("every section name is closed, and yet the parse says 4")
}

/// The refusal of a parse, as a load has it, by its number.
pub fn parse_stop(file: &[u8], number: u32) -> Stop {
    let mut refused = stop(number, 0);
    match refused.number {
        4 => {
            (refused.start, refused.length) = unclosed_name(file);
            refused.number = outcome::unclosed(refused.length < 16);
        }
        5 => refused.number = 33,
        _ => {}
    }
    refused
}

/// The load up to the entry's registration, with so many rows lent, and the most rows that were
/// held at once, also where it is refused. `file` is aligned to 16.
pub fn replay(
    file: &[u8],
    settings: Settings,
    builtins: &[u32],
    lent: usize,
) -> (usize, Result<Replayed, Stop>) {
    let mut table = Table {
        rows: BTreeMap::new(),
        lent,
        most: 0,
        moves: 0,
    };
    let end = replay_into(&mut table, file, settings, builtins);
    (table.most, end)
}

fn replay_into(
    table: &mut Table,
    file: &[u8],
    settings: Settings,
    builtins: &[u32],
) -> Result<Replayed, Stop> {
    let placed_front = dynamic::without(file);
    let front = placed_front.bytes();
    let refused = |number: u32| parse_stop(file, number);
    let elf = Elf64::parse(front).map_err(|err| refused(outcome::parser_number(&err)))?;
    let linked = dynamic::linked(file).map_err(refused)?;
    let loader = outcome::loader(settings, &[]);
    Executable::<TestContextObject>::validate(loader.get_config(), &elf, file).map_err(|err| {
        let refused = outcome::load_refusal(err);
        let mut s = stop(refused.number, refused.value);
        if s.number == 28 {
            let name = elf
                .section_header_table()
                .iter()
                .filter_map(|h| {
                    let name = elf.section_name(h.sh_name).ok()?;
                    let data = h.sh_flags & 3 == 3
                        && name.starts_with(b".data")
                        && !name.starts_with(b".data.rel");
                    (data || name.starts_with(b".bss")).then_some(name)
                })
                .next()
                .expect("a writable section");
            (s.start, s.length) = (place_of(front, name), name.len() as u64);
        }
        s
    })?;

    // the text's place
    let header = elf.file_header();
    let version2 = header.e_flags == 0x20;
    let text: &Elf64Shdr = elf
        .section_header_table()
        .iter()
        .find(|h| elf.section_name(h.sh_name) == Ok(b".text"))
        .expect("one .text");
    let text_addr = if version2 && text.sh_addr >= PROGRAM_START {
        text.sh_addr
    } else {
        text.sh_addr.saturating_add(PROGRAM_START)
    };
    let last = if version2 {
        text_addr.saturating_add(text.sh_size)
    } else {
        text_addr
    };
    if (settings.reject_broken && !version2 && text.sh_addr != text.sh_offset) || last > STACK_START
    {
        return Err(stop(33, 0));
    }
    let (text_start, text_length) = if text.sh_type == 8 {
        (0, 0)
    } else {
        (text.sh_offset, text.sh_size)
    };
    let in_text = |at: u64| at >= text_start && at - text_start < text_length;
    let addresses = text.sh_addr..text.sh_addr.saturating_add(text.sh_size);
    let index_of = |value: u64| (value - text.sh_addr) / 8;

    let rules = Rules {
        version2,
        settings,
        builtins,
    };
    let mut image = Image {
        bytes: file.to_vec(),
        writes: Vec::new(),
    };

    // local calls, read in the file
    let slots = text_length / 8;
    for slot in 0..slots {
        let at = text_start + 8 * slot;
        let source = file[at as usize + 1] >> 4;
        let immediate = read(file, at + 4, 4)? as u32 as i32 as i64;
        if file[at as usize] != 0x85 || immediate == -1 || (version2 && source == 0) {
            continue;
        }
        let target = slot as i64 + 1 + immediate;
        if target < 0 || target >= slots as i64 {
            return Err(stop(23, slot));
        }
        let key = rules.register(table, Name::Call, target as u64)?;
        image.write(Writer::Call(slot as u32), at + 4, key as u64, 4)?;
    }

    // relocations, of both tables as one list
    let symbol_at = |number: u64| {
        let (at, count) = linked.symbols;
        let at = (number < count).then_some((at + 24 * number) as usize);
        let at = at.ok_or(stop(32, number))?;
        let field = |from: usize, width: u64| read(file, (at + from) as u64, width);
        Ok((field(0, 4)? as u32, field(4, 1)? as u8, field(8, 8)?))
    };
    let mut mapping = Mapping::new(file, version2);
    let mut addends = Vec::new();
    for (j, (r_offset, r_info, addend)) in dynamic::both(file, &linked).into_iter().enumerate() {
        let r = mapping.place(r_offset).ok_or(stop(33, 0))?;
        let by = Writer::Relocation(j as u32);
        let number = r_info >> 32;
        let kind = r_info as u32;
        if (kind == 1 || kind == 8) && addend.is_some_and(|a| a as i64 >> 63 != 0) {
            return Err(stop(47, 0));
        }
        addends.push(None);
        let mut taken = |at: u64, there: u64| {
            let value = addend.unwrap_or(there);
            *addends.last_mut().unwrap() = Some((value, at));
            value
        };
        match kind {
            1 => {
                let halves = in_text(r) || !version2;
                let at = if halves { r.saturating_add(4) } else { r };
                let added = taken(at, image.read(at, 4)?);
                let addr = placed(symbol_at(number)?.2.saturating_add(added));
                if halves {
                    image.write(by, at, addr & 0xffff_ffff, 4)?;
                    image.write(by, at.saturating_add(8), addr >> 32, 4)?;
                } else {
                    image.write(by, at, addr, 8)?;
                }
            }
            8 if in_text(r) => {
                let (low, high) = (r.saturating_add(4), r.saturating_add(12));
                let addr = taken(low, image.read(low, 4)? | image.read(high, 4)? << 32);
                if addr == 0 {
                    return Err(stop(29, 0));
                }
                image.write(by, low, placed(addr) & 0xffff_ffff, 4)?;
                image.write(by, high, placed(addr) >> 32, 4)?;
            }
            8 => {
                let addr = if version2 {
                    placed(taken(r, image.read(r, 8)?))
                } else {
                    PROGRAM_START + taken(r, image.read(r.saturating_add(4), 4)?)
                };
                image.write(by, r, addr, 8)?;
            }
            10 => {
                let (st_name, st_info, st_value) = symbol_at(number)?;
                let name = elf
                    .dynamic_symbol_name(st_name)
                    .map_err(|_| stop(32, st_name as u64))?;
                let key = if st_info & 15 == 2 && st_value != 0 {
                    if !addresses.contains(&st_value) {
                        return Err(stop(33, 0));
                    }
                    let name = Name::Symbol(name, place_of(front, name));
                    rules.register(table, name, index_of(st_value))?
                } else {
                    let hash = outcome::hash(name);
                    if settings.reject_broken && !rules.is_builtin(hash) {
                        return Err(Stop {
                            number: 22,
                            value: r,
                            start: place_of(front, name),
                            length: name.len() as u64,
                        });
                    }
                    hash
                };
                image.write(by, r.saturating_add(4), key as u64, 4)?;
            }
            other => return Err(stop(30, other as u64)),
        }
    }

    // labels
    if settings.labels {
        for symbol in elf.symbol_table().ok().flatten().unwrap_or_default() {
            if symbol.st_info & 0xef != 2 {
                continue;
            }
            if !addresses.contains(&symbol.st_value) {
                return Err(stop(33, 0));
            }
            let name = elf
                .symbol_name(symbol.st_name)
                .map_err(|_| stop(32, symbol.st_name as u64))?;
            let name = Name::Symbol(name, place_of(front, name));
            rules.register(table, name, index_of(symbol.st_value))?;
        }
    }

    // the entry
    let offset = header.e_entry - text.sh_addr;
    if offset % 8 != 0 {
        return Err(stop(21, 0));
    }
    if !version2 {
        table.forget(outcome::hash(b"entrypoint"));
    }
    rules.register(table, Name::Entry, offset / 8)?;

    Ok(Replayed {
        version2,
        entry: offset / 8,
        image: image.bytes,
        rows: std::mem::take(&mut table.rows),
        moves: table.moves,
        text_addr,
        text_start,
        text_length,
        addends,
        writes: image.writes,
    })
}

/// The Rust's read-only section of an image, for a file whose load is otherwise the model's.
pub fn read_only(file: &[u8], settings: Settings, m: &Replayed) -> Result<ReadOnly, Stop> {
    let front = dynamic::without(file);
    let elf = Elf64::parse(front.bytes()).expect("a file that the model accepts");
    let loader = outcome::loader(settings, &[]);
    let section = rbpf::read_only(loader.get_config(), m.version2, &elf, &m.image);
    let (copied, addr_offset, range, bytes) = section.map_err(|err| {
        let refused = outcome::load_refusal(err);
        stop(refused.number, refused.value)
    })?;
    Ok(ReadOnly {
        copied,
        addr_offset: addr_offset as u64,
        start: range.start as u64,
        length: bytes.len() as u64,
        bytes,
    })
}
