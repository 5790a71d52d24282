//! What a load must answer and leave, in full: from the Rust, and from the scope where the
//! Rust says nothing (40 to 43, moves, name kinds, places of names, the lent columns). A file with
//! relocations that bring an addend, which the Rust passes over, has the model's answer, and of the Rust
//! the read-only section alone.

use crate::{
    cases::Case,
    compare::Placed,
    dynamic,
    elf::{PROGRAM_START, STACK_START},
    model::{self, only, Replayed, Stop},
    outcome::{self, ReadOnly, Text},
    port::{Columns, WORDS},
    writers::Write,
    Outcome,
};

/// The longest file that is not refused with 40.
pub const LONGEST: usize = 1 << 24;

#[derive(Clone, Debug)]
pub struct Expected {
    pub words: [u64; WORDS],
    /// The lent buffers afterwards, whole.
    pub image: Vec<u8>,
    pub ro: Vec<u8>,
    pub table: Columns,
    /// What `get_text_bytes` does after an accepted load.
    pub text: Option<Text>,
    /// What the load wrote to the image over the file's bytes, in order.
    pub writes: Vec<Write>,
    /// The most rows that the load would hold at once if the table had no end.
    pub most: usize,
}

fn refused(case: &Case, stop: Stop, most: usize) -> Expected {
    Expected {
        words: stop.words(),
        image: vec![0; case.image],
        ro: vec![0; case.ro],
        table: case.columns.map(|n| vec![0; n]),
        text: None,
        writes: Vec::new(),
        most,
    }
}

/// A refusal of the Rust against the model's: the place must spell the Rust's text.
fn agree(file: &[u8], rust: &outcome::Refused, stop: &Stop) -> bool {
    let name = match rust.name {
        None => stop.start == 0 && stop.length == 0,
        Some(ref name) => {
            let bytes = &file[stop.start as usize..(stop.start + stop.length) as usize];
            String::from_utf8_lossy(bytes).as_bytes() == name
        }
    };
    // the Rust does not tell a name that is cut off from one that is too long
    let number = if stop.number == 49 { 4 } else { stop.number };
    name && rust.number == number && rust.value == stop.value
}

/// Err where the model and the Rust disagree: then the model is wrong.
pub fn expected(case: &Case) -> Result<Expected, String> {
    // what the scope refuses before the Rust is asked
    if case.file.len() > LONGEST {
        return Ok(refused(case, only(40), 0));
    }
    if case.image < case.file.len() || case.ro < case.file.len() {
        return Ok(refused(case, only(41), 0));
    }
    if case.builtins.windows(2).any(|w| w[0] >= w[1]) {
        return Ok(refused(case, only(42), 0));
    }

    // the model, with a table that has no end, against the Rust
    let mut placed = Placed::new();
    placed.put(&case.file, 0);
    let file = placed.bytes();
    if dynamic::has_relas(file) {
        return Ok(by_the_model(case, file));
    }
    let rust = outcome::outcome(file, case.settings, &case.builtins, usize::MAX);
    let (most, whole) = model::replay(file, case.settings, &case.builtins, usize::MAX);
    let wrong = |what: &str| {
        Err(format!(
            "the model is wrong: {what}\n  model: {whole:x?}\n  Rust: {rust:x?}"
        ))
    };
    // what counts after the entry's registration
    let mut at_last = None;
    let accepted = match (&rust, &whole) {
        (Outcome::Refused(r), Err(stop)) => {
            if !agree(file, r, stop) {
                return wrong("another refusal");
            }
            None
        }
        (Outcome::Refused(r), Ok(_)) => {
            // the read-only sections, which the model leaves to the Rust
            if (r.number, r.value, &r.name) != (33, 0, &None) {
                return wrong("a refusal that is not the read-only sections'");
            }
            at_last = Some(only(33));
            None
        }
        (Outcome::Accepted(a), Ok(m)) => {
            if a.version != 1 + m.version2 as u32 || a.entry != m.entry {
                return wrong("another version or entry");
            }
            if a.image != m.image {
                return wrong("another image");
            }
            let rows = a.rows.iter().map(|r| (r.key, r.index, r.name.clone()));
            if !rows.eq(m.rows.iter().map(|(k, r)| (*k, r.index, r.name(file)))) {
                return wrong("other rows");
            }
            match a.text {
                Text::Part { vaddr, ref bytes } => {
                    if vaddr != m.text_addr || bytes.len() as u64 != m.text_length {
                        return wrong("another text");
                    }
                }
                // the scope: version 1, lowest address 0x100000000
                Text::Aborted => {
                    let lowest = a.ro.copied && a.ro.addr_offset == 0 && case.settings.optimize;
                    if m.version2 || m.text_addr != STACK_START || !lowest {
                        return wrong("the text part aborts elsewhere");
                    }
                }
            }
            Some(a)
        }
        _ => return wrong("one refuses, the other does not"),
    };

    // the same with the rows that are lent
    let rows = case.rows();
    let replayed = match model::replay(file, case.settings, &case.builtins, rows).1 {
        Err(stop) => {
            if stop.number != 43 && whole.as_ref().err() != Some(&stop) {
                return wrong("a table's end makes another refusal than 43");
            }
            return Ok(refused(case, stop, most));
        }
        Ok(replayed) => replayed,
    };
    let a = match (at_last, accepted) {
        (Some(stop), _) => return Ok(refused(case, stop, most)),
        (None, Some(a)) => a,
        (None, None) => return wrong("no refusal where the Rust has one"),
    };
    let n = rows as u64;
    if replayed.moves > n * (n - 1) / 2 + 2 * (n - 1) {
        return wrong("more moves than the scope allows");
    }
    Ok(accepted_with(case, &replayed, &a.ro, a.text.clone(), most))
}

/// Where the text stands in the read-only bytes: `get_text_bytes`, from the answer alone.
pub fn text_in(ro: &[u8], words: &[u64]) -> Option<(u64, u64)> {
    let (offset, addr, size) = (words[9], words[12], words[14]);
    let at = addr.saturating_sub(PROGRAM_START).saturating_sub(offset);
    let end = at.checked_add(size)?;
    (end <= ro.len() as u64).then_some((at, size))
}

fn accepted_words(m: &Replayed, ro: &ReadOnly) -> [u64; WORDS] {
    let mut words = [0; WORDS];
    words[4..15].copy_from_slice(&[
        1 + m.version2 as u64,
        m.entry,
        m.rows.len() as u64,
        m.moves,
        ro.copied as u64,
        ro.addr_offset,
        ro.start,
        ro.length,
        m.text_addr,
        m.text_start,
        m.text_length,
    ]);
    words
}

fn accepted_with(case: &Case, m: &Replayed, ro: &ReadOnly, text: Text, most: usize) -> Expected {
    let mut image = m.image.clone();
    image.resize(case.image, 0);
    let mut copy = if ro.copied {
        ro.bytes.clone()
    } else {
        Vec::new()
    };
    copy.resize(case.ro, 0);
    let mut table: Columns = case.columns.map(|n| vec![0; n]);
    for (k, (key, row)) in m.rows.iter().enumerate() {
        table[0][k] = *key;
        table[1][k] = row.index as u32;
        table[2][k] = row.kind;
        table[3][k] = row.start as u32;
        table[4][k] = row.length as u32;
    }
    Expected {
        words: accepted_words(m, ro),
        image,
        ro: copy,
        table,
        text: Some(text),
        writes: m.writes.clone(),
        most,
    }
}

/// A file with relocations that bring an addend.
fn by_the_model(case: &Case, file: &[u8]) -> Expected {
    let (most, _) = model::replay(file, case.settings, &case.builtins, usize::MAX);
    let replayed = model::replay(file, case.settings, &case.builtins, case.rows()).1;
    let loaded = replayed.and_then(|m| {
        let ro = model::read_only(file, case.settings, &m)?;
        Ok((m, ro))
    });
    let (m, ro) = match loaded {
        Err(stop) => return refused(case, stop, most),
        Ok(loaded) => loaded,
    };
    let text = match text_in(&ro.bytes, &accepted_words(&m, &ro)) {
        None => Text::Aborted,
        Some((at, size)) => Text::Part {
            vaddr: m.text_addr,
            bytes: ro.bytes[at as usize..(at + size) as usize].to_vec(),
        },
    };
    accepted_with(case, &m, &ro, text, most)
}
