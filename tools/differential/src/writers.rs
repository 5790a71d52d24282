//! Who wrote each byte of a load's image: from the request's text, since the Rust has no such question. The
//! bytes are those that calls and relocations name; `model` keeps beside it what the load really writes, and
//! of every accepted load the two are compared.

use crate::{
    dynamic::{self, get, Linked, Mapping},
    expected::{Expected, LONGEST},
    model::{self, only, Stop},
    outcome,
};
use rbpf::elf_parser::Elf64;

#[derive(Clone, Copy, Debug, PartialEq, Eq)]
pub enum Writer {
    File,
    /// By its slot.
    Call(u32),
    /// By its number in the order in which they are applied, through both tables.
    Relocation(u32),
}

impl Writer {
    /// The number that stands for it where a number is given for each byte.
    pub fn code(self) -> u32 {
        match self {
            Writer::File => 0,
            Writer::Call(slot) => slot + 1,
            Writer::Relocation(j) => (1 << 31) + j,
        }
    }

    /// Its kind and its number.
    pub fn words(self) -> [u64; 2] {
        match self {
            Writer::File => [0, 0],
            Writer::Call(slot) => [1, slot as u64],
            Writer::Relocation(j) => [2, j as u64],
        }
    }
}

/// A place, the number of bytes from there on, and who writes them.
pub type Write = (u64, u64, Writer);

/// What a load's answer says of the text: the version, and its place in the file.
#[derive(Clone, Copy, Debug)]
struct Text {
    version2: bool,
    start: u64,
    length: u64,
}

impl Text {
    fn holds(self, r: u64) -> bool {
        r >= self.start && r - self.start < self.length
    }
}

/// Whether a slot is a local call.
fn is_local_call(slot: &[u8], version2: bool) -> bool {
    slot[0] == 0x85 && slot[4..8] != [0xff; 4] && !(version2 && slot[1] < 0x10)
}

/// The bytes of each local call's immediate, by slot.
fn calls(file: &[u8], text: Text) -> Vec<Write> {
    let bytes = &file[text.start as usize..(text.start + text.length) as usize];
    let slots = bytes.chunks_exact(8).enumerate();
    slots
        .filter(|(_, slot)| is_local_call(slot, text.version2))
        .map(|(i, _)| (text.start + 8 * i as u64 + 4, 4, Writer::Call(i as u32)))
        .collect()
}

/// The bytes that a relocation at `r` names: how far behind `r`, and how many.
fn named(text: Text, kind: u32, r: u64) -> &'static [(u64, u64)] {
    const HALVES: &[(u64, u64)] = &[(4, 4), (12, 4)];
    const WORD: &[(u64, u64)] = &[(0, 8)];
    const IMMEDIATE: &[(u64, u64)] = &[(4, 4)];
    match kind {
        1 if text.holds(r) || !text.version2 => HALVES,
        8 if text.holds(r) => HALVES,
        1 | 8 => WORD,
        10 => IMMEDIATE,
        _ => &[],
    }
}

/// The bytes that all relocations name, one after another. A place that version 2 finds under no program
/// header names none.
fn relocations(file: &[u8], linked: &Linked, text: Text) -> Vec<Write> {
    let mut mapping = Mapping::new(file, text.version2);
    let mut writes = Vec::new();
    for (j, (r_offset, r_info, _)) in dynamic::both(file, linked).into_iter().enumerate() {
        let Some(r) = mapping.place(r_offset) else {
            continue;
        };
        for (behind, n) in named(text, r_info as u32, r) {
            let at = r.saturating_add(*behind);
            writes.push((at, *n, Writer::Relocation(j as u32)));
        }
    }
    writes
}

/// What is written to the image of a file, in order, and how many relocations the older table has.
#[derive(Clone, Debug, PartialEq, Eq)]
pub struct Written {
    pub writes: Vec<Write>,
    pub older: u64,
}

/// What the question goes by, for the words of a load's answer or any others: the load's refusal, or why no
/// load of this file can have given these.
pub fn asked(file: &[u8], loaded: &[u64]) -> Result<Written, Stop> {
    Stop::told(loaded)?;
    let word = |k: usize| loaded.get(k).copied().unwrap_or(0);
    if file.len() > LONGEST {
        return Err(only(40));
    }
    let text = Text {
        version2: word(4) == 2,
        start: word(13),
        length: word(14),
    };
    let end = text.start.saturating_add(text.length);
    if end > file.len() as u64 {
        return Err(only(33));
    }
    let refused = |number: u32| model::parse_stop(file, number);
    Elf64::parse(dynamic::without(file).bytes())
        .map_err(|err| refused(outcome::parser_number(&err)))?;
    let linked = dynamic::linked(file).map_err(refused)?;
    // version 2 has at most nine program headers
    if text.version2 && get(file, 56, 2) >= 10 {
        return Err(only(2));
    }
    Ok(Written {
        writes: [calls(file, text), relocations(file, &linked, text)].concat(),
        older: linked.relocations.1,
    })
}

/// Err where the bytes that calls and relocations name are not those that the load writes: then the model is
/// wrong, here or there.
pub fn agree(file: &[u8], e: &Expected) -> Result<(), String> {
    let named = asked(file, &e.words).map(|written| written.writes);
    if e.words[0] != 0 || named.as_ref() == Ok(&e.writes) {
        return Ok(());
    }
    Err(format!(
        "the model is wrong: what is named is not what is written\n  named: {named:x?}\n  written: {:x?}",
        e.writes
    ))
}

/// Who wrote each byte of a file last. What is written behind its end is no byte of it.
pub fn last(len: usize, writes: &[Write]) -> Vec<Writer> {
    let mut writers = vec![Writer::File; len];
    for (at, n, by) in writes {
        let end = at.saturating_add(*n).min(len as u64);
        for byte in *at..end {
            writers[byte as usize] = *by;
        }
    }
    writers
}
