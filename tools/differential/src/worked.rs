//! The scope's worked examples, also those that specs/Worked.antt proves, and a few more of the same
//! kind: each with the answer that was worked out by hand, the port's and the Rust's. Where an
//! example has a limit, the neighbour on its other side is beside it. And published hashes.
//!
//! `write` makes of them what the program crates/worked runs without any Rust.

use crate::{
    cases::Case,
    compare::Placed,
    depth, dynamic,
    elf::{PROGRAM_START, STACK_START},
    expected::{expected, Expected, LONGEST},
    finding, loads,
    model::{only, Stop},
    outcome,
    port::{self, Columns, Question},
    writers::{self, Writer},
    Outcome, Settings,
};
use rbpf::elf_parser::Elf64;
use std::{fmt, fs, path::Path};

/// The input of crates/loadlist, which is the version 2 example.
const LOADLIST: &[u8] = include_bytes!("../../../crates/loadlist/stdin");

/// What loadlist prints, and what the load wrote.
#[derive(Clone, Debug, PartialEq, Eq)]
enum Told {
    /// Number, value, name start, name length.
    Refused([u64; 4]),
    /// Version, entry, keys, moves; key, index, and the name's kind, start and length of each row; and
    /// the image's words that are not the file's, with their places.
    Accepted([u64; 4], Vec<[u32; 5]>, Vec<(u32, usize)>),
    /// Start and length, of a question to the file.
    Place(u64, u64),
    /// Whether there is a symbol with a name, 1 or 0, and its number.
    Symbol(u64, u64),
    /// Who wrote a byte: kind and number, with the load and by its answer, and the code among all bytes.
    Wrote([u64; 2], [u64; 2], u32),
    /// Number, value and chain, as the load and as the question by its answer tell them.
    Depth([u64; 3], [u64; 3]),
}

/// The words of `image` that are not the file's.
fn written(image: &[u8], file: &[u8]) -> Vec<(u32, usize)> {
    let words = image.chunks_exact(4).zip(file.chunks_exact(4)).enumerate();
    words
        .filter(|(_, (word, before))| word != before)
        .map(|(k, (word, _))| (u32::from_le_bytes(word.try_into().unwrap()), 4 * k))
        .collect()
}

fn told_written(words: &[(u32, usize)]) -> String {
    let each = words.iter().map(|(word, at)| format!(", {word} at {at}"));
    each.collect()
}

fn told_rows(rows: &[[u32; 5]]) -> String {
    let each = rows
        .iter()
        .map(|row| format!(" | {}", told_numbers(&row.map(u64::from))));
    each.collect()
}

fn told_numbers(numbers: &[u64]) -> String {
    let each: Vec<String> = numbers.iter().map(u64::to_string).collect();
    each.join(" ")
}

impl fmt::Display for Told {
    fn fmt(&self, f: &mut fmt::Formatter) -> fmt::Result {
        match self {
            Told::Refused(r) => write!(f, "refused {}", told_numbers(r)),
            Told::Accepted(a, rows, words) => write!(
                f,
                "accepted {}{}{}",
                told_numbers(a),
                told_rows(rows),
                told_written(words)
            ),
            Told::Place(start, length) => write!(f, "{length} bytes at {start}"),
            Told::Symbol(found, number) => write!(f, "symbol {found} {number}"),
            Told::Wrote(load, asked, code) => write!(
                f,
                "by {}, {}, {code}",
                told_numbers(load),
                told_numbers(asked)
            ),
            Told::Depth(load, asked) => {
                write!(f, "depth {}, {}", told_numbers(load), told_numbers(asked))
            }
        }
    }
}

impl Told {
    /// By the words of an answer and what the load left.
    fn of(file: &[u8], a: &[u64], table: &Columns, image: &[u8]) -> Told {
        if a[0] != 0 {
            return Told::Refused([a[0], a[1], a[2], a[3]]);
        }
        let row = |k| [0, 1, 2, 3, 4].map(|column| table[column][k]);
        Told::Accepted(
            [a[4], a[5], a[6], a[7]],
            (0..a[6] as usize).map(row).collect(),
            written(image, file),
        )
    }

    /// As far as the Rust can tell it: no moves, names in place of their kinds and places.
    fn without_added(&self, file: &[u8]) -> String {
        match self {
            // the Rust does not tell a name that is cut off from one that is too long
            Told::Refused([49, value, start, length]) => {
                Told::Refused([4, *value, *start, *length]).without_added(file)
            }
            Told::Refused([4, value, _, 0]) => format!("refused 4 {value} "),
            Told::Refused([number, value, _, 0]) => format!("refused {number} {value}"),
            Told::Refused([number, value, start, length]) => {
                let name = &file[*start as usize..(start + length) as usize];
                format!("refused {number} {value} {}", name.escape_ascii())
            }
            Told::Accepted([version, entry, keys, _], rows, words) => {
                let mut text = format!("accepted {version} {entry} {keys}");
                for [key, index, kind, start, length] in rows {
                    let name = match kind {
                        1 => file[*start as usize..(start + length) as usize]
                            .escape_ascii()
                            .to_string(),
                        2 => "entrypoint".to_string(),
                        3 => format!("function_{index}"),
                        _ => String::new(),
                    };
                    text += &format!(" | {key} {index} {name}");
                }
                text + &told_written(words)
            }
            Told::Place(..) | Told::Symbol(..) | Told::Wrote(..) | Told::Depth(..) => {
                self.to_string()
            }
        }
    }
}

/// The same of the Rust; a symbol by its name and who wrote a byte, of the model.
fn rust(e: &Example) -> String {
    match e.asked {
        Asked::Load => rust_load(&e.case),
        Asked::Symbol(name) => symbol_by_name(&e.case.file, name),
        Asked::Wrote(offset) => wrote_by_model(&e.case, offset as usize),
        Asked::Depth(limit) => depth_by_model(&e.case, limit),
        Asked::File(question, number) => match outcome::ask(&e.case.file, question, number) {
            Ok((start, length)) => Told::Place(start, length).to_string(),
            Err(r) => format!("refused {} {}", r.number, r.value),
        },
    }
}

fn symbol_by_name(file: &[u8], name: &[u8]) -> String {
    let mut placed = Placed::new();
    placed.put(file, 0);
    let elf = match Elf64::parse(placed.bytes()) {
        Ok(elf) => elf,
        Err(err) => return format!("refused {} 0", outcome::parser_number(&err)),
    };
    let symbols = dynamic::linked(file)
        .expect("the Rust accepts the table")
        .symbols;
    let name_of = |st_name| elf.dynamic_symbol_name(st_name).ok();
    match finding::find_symbol(file, symbols, name_of, name) {
        Ok(Some(number)) => Told::Symbol(1, number as u64).to_string(),
        Ok(None) => Told::Symbol(0, 0).to_string(),
        Err(_) => "refused 48 0".to_string(),
    }
}

fn told_writer(w: Writer) -> Told {
    Told::Wrote(w.words(), w.words(), w.code())
}

fn wrote_by_model(case: &Case, offset: usize) -> String {
    let loaded = expected(case)
        .expect("the model agrees with the Rust")
        .words;
    match writers::asked(&case.file, &loaded) {
        Err(stop) => format!("refused {} {}", stop.number, stop.value),
        Ok(written) => match writers::last(case.file.len(), &written.writes).get(offset) {
            Some(w) => told_writer(*w).to_string(),
            None => "refused 45 0".to_string(),
        },
    }
}

/// The same with the load and without.
fn told_depth(told: Result<u64, Stop>) -> Told {
    let words = match told {
        Ok(chain) => [0, 0, chain],
        Err(stop) => [stop.number as u64, stop.value, 0],
    };
    Told::Depth(words, words)
}

fn depth_by_model(case: &Case, limit: u32) -> String {
    let e = expected(case).expect("the model agrees with the Rust");
    if e.words[0] != 0 {
        return format!("refused {} {}", e.words[0], e.words[1]);
    }
    told_depth(depth::asked(
        &e.image,
        &e.table,
        &e.words,
        case.rows(),
        limit,
    ))
    .to_string()
}

fn rust_load(case: &Case) -> String {
    match outcome::outcome(&case.file, case.settings, &case.builtins, usize::MAX) {
        Outcome::Refused(r) => {
            let name = r
                .name
                .map(|name| format!(" {}", String::from_utf8_lossy(&name)));
            format!(
                "refused {} {}{}",
                r.number,
                r.value,
                name.unwrap_or_default()
            )
        }
        Outcome::Accepted(a) => {
            let mut text = format!("accepted {} {} {}", a.version, a.entry, a.rows.len());
            for row in a.rows {
                let name = String::from_utf8_lossy(&row.name);
                text += &format!(" | {} {} {name}", row.key, row.index);
            }
            text + &told_written(&written(&a.image, &case.file))
        }
        other => format!("{other:?}"),
    }
}

fn port(e: &Example) -> Told {
    match e.asked {
        Asked::Load => port_load(&e.case),
        Asked::Symbol(name) => {
            let words = port::find_symbol(&e.case.file, name, port::WORDS).1;
            match words[0] {
                0 => Told::Symbol(words[4], words[5]),
                _ => Told::Refused([words[0], words[1], words[2], words[3]]),
            }
        }
        Asked::Wrote(offset) => port_wrote(&e.case, offset),
        Asked::Depth(limit) => port_depth(&e.case, limit),
        Asked::File(question, number) => {
            let words = port::ask(question, &e.case.file, number, port::WORDS).1;
            match words[0] {
                0 => Told::Place(words[4], words[5]),
                _ => Told::Refused([words[0], words[1], words[2], words[3]]),
            }
        }
    }
}

fn port_load(case: &Case) -> Told {
    let (mut image, mut ro) = (vec![1; case.image], vec![1; case.ro]);
    let mut table = case.columns.map(|n| vec![1; n]);
    let mut a = [1; port::WORDS];
    let columns = table.each_mut().map(|c| &mut c[..]);
    let settings = case.settings.bits() as u32;
    port::load(
        &case.file,
        &case.builtins,
        settings,
        &mut image,
        &mut ro,
        columns,
        &mut a,
    );
    Told::of(&case.file, &a, &table, &image)
}

fn port_wrote(case: &Case, offset: u32) -> Told {
    let (mut image, mut ro) = (vec![1; case.image], vec![1; case.ro]);
    let mut table = case.columns.map(|n| vec![1; n]);
    let mut a = [1; port::WORDS];
    port::load_who_wrote(
        &case.file,
        &case.builtins,
        case.settings.bits() as u32,
        &mut image,
        &mut ro,
        table.each_mut().map(|c| &mut c[..]),
        offset as u64,
        &mut a,
    );
    let asked = port::who_wrote(&case.file, &a, offset as u64, port::WORDS).1;
    let mut numbers = vec![1; LENT];
    port::who_wrote_all(&case.file, &a, &mut numbers, port::WORDS);
    match asked[0] {
        0 => Told::Wrote(
            [a[15], a[16]],
            [asked[4], asked[5]],
            numbers[offset as usize % LENT],
        ),
        _ => Told::Refused([asked[0], asked[1], asked[2], asked[3]]),
    }
}

fn port_depth(case: &Case, limit: u32) -> Told {
    let (mut image, mut ro) = (vec![1; case.image], vec![1; case.ro]);
    let mut table = case.columns.map(|n| vec![1; n]);
    let mut work = vec![1; case.rows()];
    let mut a = [1; port::WORDS];
    port::load_call_depth(
        &case.file,
        &case.builtins,
        case.settings.bits() as u32,
        &mut image,
        &mut ro,
        table.each_mut().map(|c| &mut c[..]),
        &mut work,
        limit,
        &mut a,
    );
    if a[4] == 0 {
        return Told::Refused([a[0], a[1], a[2], a[3]]);
    }
    let load = [a[0], a[1], a[15]];
    a[0] = 0;
    let asked = port::call_depth(&image, &table, &a, &mut work, limit, port::WORDS).1;
    Told::Depth(load, [asked[0], asked[1], asked[4]])
}

/// A relocation, with its symbol.
#[derive(Clone, Copy)]
struct Relocation {
    kind: u64,
    /// The symbol's value.
    value: u64,
    /// The symbol's name, in .dynstr; None: there is no such section.
    name: Option<&'static str>,
    /// How far it stands behind the last eight bytes of the file; None: at the text's start.
    behind: Option<u64>,
    /// Of the kind that brings this addend.
    addend: Option<i64>,
}

/// Dynamic symbols, and a hash table of them.
#[derive(Clone, Copy)]
struct Symbols {
    /// Where each symbol's name stands in .dynstr.
    st_names: [u32; 3],
    names: &'static [u8],
    /// The numbers of the table: how many buckets and how many chains, and what they hold.
    numbers: &'static [u32],
    /// What tag 4 has; None: the address of the table.
    address: Option<u64>,
    /// The first number is so large that the table ends so many numbers behind the file's end.
    buckets_behind_end: Option<u32>,
    /// The first program header has 64 bytes from this address on, which are those from the table on.
    segment: Option<u64>,
}

/// The symbols lift and lower, both in the one bucket.
const NAMED: Symbols = Symbols {
    st_names: [0, 1, 6],
    names: b"\0lift\0lower\0",
    numbers: &[1, 3, 1, 0, 2, 0],
    address: None,
    buckets_behind_end: None,
    segment: None,
};

/// A file with these and no more: zero bytes as .text, program headers of zeros, an empty section, a
/// section of eight bytes, a relocation, a label, dynamic symbols, names.
#[derive(Clone, Copy)]
struct Small {
    version2: bool,
    program_headers: usize,
    /// None: at 0x100000000 in version 2, at its file offset in version 1.
    text_addr: Option<u64>,
    text_length: usize,
    /// A slot that is not zeros, by its index.
    slot: Option<(usize, u64)>,
    /// From the text's address on; the largest number stands one byte before it.
    entry: u64,
    /// Name and file offset of an empty section ahead of the text.
    empty: Option<(&'static str, u64)>,
    /// Name and flags of a section of eight bytes behind the text.
    flagged: Option<(&'static str, u64)>,
    /// The type of a .rodata of eight bytes behind the text, at its file offset.
    rodata: Option<u32>,
    /// In version 1.
    relocation: Option<Relocation>,
    /// The name of a function symbol at slot 1.
    label: Option<&'static str>,
    symbols: Option<Symbols>,
    /// e_shstrndx; None: the section of names.
    names: Option<u16>,
    /// The name of the section of names, which stands last and has no zero byte behind it.
    last_name: Option<&'static str>,
}

/// The example of loadlist.
const PLAIN: Small = Small {
    version2: true,
    program_headers: 0,
    text_addr: None,
    text_length: 16,
    slot: None,
    entry: 0,
    empty: None,
    flagged: None,
    rodata: None,
    relocation: None,
    label: None,
    symbols: None,
    names: None,
    last_name: None,
};

/// The same with one slot.
const LEAST: Small = Small {
    text_length: 8,
    ..PLAIN
};

impl Small {
    fn file(&self) -> Vec<u8> {
        let mut bytes = vec![0; 64 + 56 * self.program_headers];
        let text_at = bytes.len();
        let text_addr = self.text_addr.unwrap_or(match self.version2 {
            true => PROGRAM_START,
            false => text_at as u64,
        });
        let mut text = vec![0; self.text_length];
        if let Some((index, slot)) = self.slot {
            text[8 * index..8 * index + 8].copy_from_slice(&slot.to_le_bytes());
        }
        // name, type, flags, address, alignment, contents
        let mut sections = vec![(".text", 1u32, 6u64, text_addr, 8u64, text)];
        if let Some((name, _)) = self.empty {
            sections.insert(0, (name, 1, 0, 0, 1, Vec::new()));
        }
        if let Some((name, flags)) = self.flagged {
            sections.push((name, 1, flags, 0, 8, vec![0; 8]));
        }
        if let Some(kind) = self.rodata {
            let at = (text_at + self.text_length) as u64;
            sections.push((".rodata", kind, 2, at, 8, vec![0; 8]));
        }
        // where the relocation stands in the file
        let symbols = text_at + self.text_length;
        let relocation_at = symbols + 24;
        if let Some(Relocation {
            kind,
            value,
            name,
            addend,
            ..
        }) = self.relocation
        {
            let (symbols, relocations) = (symbols as u64, relocation_at as u64);
            let bytes_of =
                |words: &[u64]| -> Vec<u8> { words.iter().flat_map(|w| w.to_le_bytes()).collect() };
            let contents = bytes_of(&[name.is_some() as u64, value, 0]);
            sections.push((".dynsym", 11, 2, symbols, 8, contents));
            let mut contents = bytes_of(&[text_addr, kind]);
            contents.extend(addend.iter().flat_map(|a| a.to_le_bytes()));
            let size = contents.len() as u64;
            // DT_REL, DT_RELSZ, DT_RELENT, or those of the kind that brings an addend; DT_SYMTAB
            let (name_of, section, tag) = match addend {
                None => (".rel.dyn", 9, 17),
                Some(_) => (".rela.dyn", 4, 7),
            };
            sections.push((name_of, section, 2, relocations, 8, contents));
            let dynamic = relocations + size;
            let contents = bytes_of(&[tag, relocations, tag + 1, size, tag + 2, size, 6, symbols]);
            sections.push((".dynamic", 6, 2, dynamic, 8, contents));
            if let Some(name) = name {
                let names = format!("\0{name}\0").into_bytes();
                sections.push((".dynstr", 3, 2, 0, 1, names));
            }
        }
        if let Some(label) = self.label {
            let mut symbol = vec![1, 0, 0, 0, 0x12, 0, 1, 0];
            symbol.extend_from_slice(&(text_addr + 8).to_le_bytes());
            symbol.extend_from_slice(&[0; 8]);
            sections.push((".symtab", 2, 0, 0, 8, symbol));
            let names = format!("\0{label}\0").into_bytes();
            sections.push((".strtab", 3, 0, 0, 1, names));
        }
        // the text is all that stands before them
        let dynsym = text_at + self.text_length;
        let hash = dynsym + 72;
        if let Some(symbols) = self.symbols {
            let (dynsym, hash) = (dynsym as u64, hash as u64);
            let symbol = |st_name: u32| [&st_name.to_le_bytes()[..], &[0; 20]].concat();
            let contents = symbols.st_names.map(symbol).concat();
            sections.push((".dynsym", 11, 2, dynsym, 8, contents));
            let mut contents: Vec<u8> = symbols
                .numbers
                .iter()
                .flat_map(|n| n.to_le_bytes())
                .collect();
            contents.resize(contents.len().div_ceil(8) * 8, 0);
            let dynamic = hash + contents.len() as u64;
            sections.push((".hash", 5, 2, hash, 4, contents));
            // DT_HASH, DT_SYMTAB
            let entries = [4, symbols.address.unwrap_or(hash), 6, dynsym];
            let contents = entries.iter().flat_map(|w| w.to_le_bytes()).collect();
            sections.push((".dynamic", 6, 2, dynamic, 8, contents));
            sections.push((".dynstr", 3, 2, 0, 1, symbols.names.to_vec()));
        }
        let last_name = self.last_name.unwrap_or(".shstrtab");
        sections.push((last_name, 3, 0, 0, 1, Vec::new()));
        let mut names = vec![0];
        let mut name_at = Vec::new();
        for (name, ..) in &sections {
            name_at.push(names.len() as u32);
            names.extend_from_slice(name.as_bytes());
            names.push(0);
        }
        if self.last_name.is_some() {
            names.pop();
        }
        sections.last_mut().unwrap().5 = names;

        let mut headers = vec![0; 64];
        for ((section, kind, flags, addr, align, contents), name) in sections.iter().zip(&name_at) {
            let mut header = [0; 64];
            header[..4].copy_from_slice(&name.to_le_bytes());
            header[4..8].copy_from_slice(&kind.to_le_bytes());
            header[8..16].copy_from_slice(&flags.to_le_bytes());
            header[16..24].copy_from_slice(&addr.to_le_bytes());
            let at = match self.empty {
                Some((empty, at)) if empty == *section => at,
                _ => bytes.len() as u64,
            };
            header[24..32].copy_from_slice(&at.to_le_bytes());
            header[32..40].copy_from_slice(&(contents.len() as u64).to_le_bytes());
            header[48..56].copy_from_slice(&align.to_le_bytes());
            headers.extend_from_slice(&header);
            bytes.extend_from_slice(contents);
        }
        bytes.resize(bytes.len().div_ceil(8) * 8, 0);
        let table = bytes.len() as u64;
        bytes.extend_from_slice(&headers);

        bytes[..7].copy_from_slice(b"\x7fELF\x02\x01\x01");
        let names = self.names.unwrap_or(sections.len() as u16);
        for (at, value) in [
            (16, 3),
            (18, 247),
            (20, 1),
            (48, if self.version2 { 0x20 } else { 0 }),
            (52, 64),
            (54, 56),
            (56, self.program_headers as u16),
            (58, 64),
            (60, 1 + sections.len() as u16),
            (62, names),
        ] {
            bytes[at..at + 2].copy_from_slice(&value.to_le_bytes());
        }
        let program_headers = if self.program_headers == 0 { 0 } else { 64 };
        for (at, value) in [
            (24, text_addr.wrapping_add(self.entry)),
            (32, program_headers),
            (40, table),
        ] {
            bytes[at..at + 8].copy_from_slice(&value.to_le_bytes());
        }
        if let Some(Symbols {
            numbers,
            buckets_behind_end: Some(behind),
            ..
        }) = self.symbols
        {
            let buckets = ((bytes.len() - hash - 8) / 4) as u32 - numbers[1] + behind;
            bytes[hash..hash + 4].copy_from_slice(&buckets.to_le_bytes());
        }
        if let Some(Symbols {
            segment: Some(address),
            ..
        }) = self.symbols
        {
            for (at, value) in [(8, hash as u64), (16, address), (40, 64)] {
                bytes[64 + at..72 + at].copy_from_slice(&value.to_le_bytes());
            }
        }
        if let Some(Relocation {
            behind: Some(behind),
            ..
        }) = self.relocation
        {
            let place = bytes.len() as u64 - 8 + behind;
            bytes[relocation_at..relocation_at + 8].copy_from_slice(&place.to_le_bytes());
        }
        bytes
    }

    fn case(&self) -> Case {
        lent(self.file())
    }
}

/// The longest file of the program that runs the examples, which is also what it lends, and its rows.
const LENT: usize = 1_024;
const ROWS: usize = 8;

/// A case of this file, with all settings on, no built-ins, and as much lent as the program lends.
fn lent(file: Vec<u8>) -> Case {
    Case {
        image: file.len().max(LENT),
        ro: file.len().max(LENT),
        columns: [ROWS; 5],
        ..Case::of_file(file)
    }
}

fn refused(number: u64, value: u64) -> Told {
    Told::Refused([number, value, 0, 0])
}

/// Entry 0, which alone has a row, and no moves.
fn accepted(version: u64, key: u32) -> Told {
    Told::Accepted([version, 0, 1, 0], vec![[key, 0, 2, 0, 10]], Vec::new())
}

/// What is asked: a load of the case, or a question to its file, with its number or the name.
#[derive(Clone, Copy)]
enum Asked {
    Load,
    File(Question, u32),
    Symbol(&'static [u8]),
    /// Who wrote the byte with this offset.
    Wrote(u32),
    /// How deep it calls, with this limit.
    Depth(u32),
}

struct Example {
    what: &'static str,
    asked: Asked,
    case: Case,
    expected: Told,
    /// The Rust has the limit, or reads the relocation, too; or the model has the question.
    asks_rust: bool,
}

/// With rows lent: the shortest column decides.
fn with_rows(mut case: Case, rows: usize) -> Case {
    case.columns[4] = rows;
    case
}

// The settings by their bits, as include/sbpf.h has them.
const LABELS: u64 = 1;
const REJECT_BROKEN: u64 = 2;
const COLLISION_CHECK: u64 = 4;
const OPTIMIZE: u64 = 8;
const V1: u64 = 16;
const V2: u64 = 32;
const ALL: u64 = 63;

/// With settings, by their bits, and a built-in.
fn with(mut case: Case, settings: u64, builtin: u32) -> Case {
    case.settings = Settings::from_bits(settings);
    case.builtins = vec![builtin];
    case
}

fn examples() -> Vec<Example> {
    let headers = |version2, program_headers| {
        Small {
            version2,
            program_headers,
            ..LEAST
        }
        .case()
    };
    // one slot before the limit, and one byte more
    let ending = |text_length, slot| {
        Small {
            text_addr: Some(STACK_START - 8),
            text_length,
            slot,
            ..PLAIN
        }
        .case()
    };
    // slot 0, that calls behind the text: refused with 23 after the checks of the text's place
    let far = Some((0, 0x1085 | 9 << 32));
    let entry = |version2, entry| {
        Small {
            version2,
            entry,
            ..LEAST
        }
        .case()
    };
    let long = |length| {
        let mut file = LEAST.file();
        file.resize(length, 0);
        lent(file)
    };
    let labelled = |name, rows| {
        let small = Small {
            version2: false,
            label: Some(name),
            ..PLAIN
        };
        with_rows(small.case(), rows)
    };
    let names = |index| {
        let names = Some(index);
        Small { names, ..LEAST }.case()
    };
    let named = |name| {
        let empty = Some((name, 64));
        Small { empty, ..PLAIN }.case()
    };
    let ending_in = |name| {
        let last_name = Some(name);
        Small { last_name, ..PLAIN }.case()
    };
    let empty_at = |at| {
        let empty = Some((".empty", at));
        Small { empty, ..PLAIN }.case()
    };
    // slot 3 of 8 is a call with this source register and immediate
    let call = |version2, source: u64, immediate: i32| {
        Small {
            version2,
            text_length: 64,
            slot: Some((3, 0x85 | source << 12 | (immediate as u32 as u64) << 32)),
            ..PLAIN
        }
        .case()
    };
    // behind the header, slots 0 to 2 and half of slot 3
    let immediate_at = 64 + 28;
    // of this type, with a symbol of this value, over two halves of which the lower holds this
    let relocated = |kind, value, low: u64, addend, behind| {
        Small {
            version2: false,
            slot: Some((0, 0x18 | low << 32)),
            relocation: Some(Relocation {
                kind,
                value,
                name: None,
                behind,
                addend,
            }),
            ..PLAIN
        }
        .case()
    };
    let relocation = |kind, value, low: u64| relocated(kind, value, low, None, None);
    // type 10, of a symbol that no function has, named as a built-in
    let call_by_name = |behind, addend| {
        Small {
            version2: false,
            relocation: Some(Relocation {
                kind: 10,
                value: 0,
                name: Some("abort"),
                behind,
                addend,
            }),
            ..PLAIN
        }
        .case()
    };
    let named_call = |behind| call_by_name(behind, None);
    let flagged = |name, flags| {
        let flagged = Some((name, flags));
        Small { flagged, ..PLAIN }.case()
    };
    let rodata = |kind| {
        Small {
            version2: false,
            rodata: Some(kind),
            ..PLAIN
        }
        .case()
    };
    // version 1, where the text need not stand at its file offset
    let text_at = |addr, slot| {
        let small = Small {
            version2: false,
            text_addr: Some(addr),
            slot,
            ..LEAST
        };
        with(small.case(), ALL ^ REJECT_BROKEN, 0)
    };
    // MurmurHash3 of the names entrypoint and abort, and of the eight bytes of the indices 0, 1 and 7
    let (entrypoint, abort) = (0x71e3_cf81, 0xb6fc_1a11);
    let (key_0, key_1, key_7) = (0x6385_2afc, 0x5307_5d44, 0xf7cc_5443);
    // version 1, and the words that the relocation leaves behind
    let halves = |words: &[(u32, usize)]| {
        Told::Accepted(
            [1, 0, 1, 0],
            vec![[entrypoint, 0, 2, 0, 10]],
            words.to_vec(),
        )
    };
    let example = |what, case, expected| Example {
        what,
        asked: Asked::Load,
        case,
        expected,
        asks_rust: true,
    };
    let added = |what, case, expected| Example {
        asks_rust: false,
        ..example(what, case, expected)
    };
    // contents by index; the Rust has no 45 and 46
    let contents = |what, case, index, expected| Example {
        asked: Asked::File(Question::SectionPlace, index),
        asks_rust: matches!(expected, Told::Place(..)),
        ..example(what, case, expected)
    };
    let wrote = |what, case, offset, expected| Example {
        asked: Asked::Wrote(offset),
        ..example(what, case, expected)
    };
    let (by_file, by_call) = (told_writer(Writer::File), told_writer(Writer::Call(3)));
    let by_relocation = told_writer(Writer::Relocation(0));
    let small_len = PLAIN.file().len() as u32;
    // type 8 of the file's last eight bytes
    let at_the_end = || relocated(8, 0, 0, Some(5), Some(0));
    let end = at_the_end().file.len() as u32;
    let called = immediate_at as u32;
    let empty = lent(Vec::new());
    let loadlist = lent(LOADLIST.to_vec());
    let version_1 = Small {
        version2: false,
        ..PLAIN
    };
    vec![
        example("loadlist, empty input", empty, refused(33, 0)),
        example("loadlist, its input", loadlist, accepted(2, 0)),
        example("the same, built here", PLAIN.case(), accepted(2, 0)),
        // the name stands behind the header, the text and seven bytes
        example(
            "section name of 15 bytes, where its table ends",
            ending_in(".fifteen_bytes."),
            Told::Refused([49, 0, 87, 15]),
        ),
        example(
            "section name of 16 bytes, where its table ends",
            ending_in(".sixteen_bytes__"),
            Told::Refused([4, 0, 87, 16]),
        ),
        example(
            "section name of 17 bytes, where its table ends",
            ending_in(".seventeen_bytes_"),
            Told::Refused([4, 0, 87, 16]),
        ),
        example(
            "section name at the end of its table",
            ending_in(""),
            Told::Refused([49, 0, 87, 0]),
        ),
        example(
            "section name of 15 bytes",
            named(".fifteen_bytes."),
            accepted(2, 0),
        ),
        example(
            "section name of 16 bytes",
            named(".sixteen_bytes__"),
            // behind the header, the text and a zero byte
            Told::Refused([4, 0, 81, 16]),
        ),
        example(
            "version 2, slot 3 of 8 calls -4",
            call(true, 1, -4),
            // the entry's row is there already, and keeps its name
            Told::Accepted([2, 0, 1, 0], vec![[0, 0, 3, 0, 0]], vec![(0, immediate_at)]),
        ),
        example(
            "version 2, slot 3 of 8 calls -5",
            call(true, 1, -5),
            refused(23, 3),
        ),
        example(
            "version 2, slot 3 of 8 calls 3",
            call(true, 1, 3),
            Told::Accepted(
                [2, 0, 2, 1],
                vec![[0, 0, 2, 0, 10], [7, 7, 3, 0, 0]],
                vec![(7, immediate_at)],
            ),
        ),
        example(
            "version 2, slot 3 of 8 calls 4",
            call(true, 1, 4),
            refused(23, 3),
        ),
        example(
            "version 2, slot 3 of 8 calls -1",
            call(true, 1, -1),
            accepted(2, 0),
        ),
        example(
            "version 2, slot 3 of 8 calls 4 with source 0",
            call(true, 0, 4),
            accepted(2, 0),
        ),
        example(
            "version 1, slot 3 of 8 calls -4",
            call(false, 0, -4),
            Told::Accepted(
                [1, 0, 2, 0],
                vec![[key_0, 0, 3, 0, 0], [entrypoint, 0, 2, 0, 10]],
                vec![(key_0, immediate_at)],
            ),
        ),
        example(
            "version 1, slot 3 of 8 calls -5",
            call(false, 0, -5),
            refused(23, 3),
        ),
        example(
            "version 1, slot 3 of 8 calls 3",
            call(false, 0, 3),
            Told::Accepted(
                [1, 0, 2, 1],
                vec![[entrypoint, 0, 2, 0, 10], [key_7, 7, 3, 0, 0]],
                vec![(key_7, immediate_at)],
            ),
        ),
        example(
            "version 1, slot 3 of 8 calls 4",
            call(false, 0, 4),
            refused(23, 3),
        ),
        example(
            "version 1, slot 3 of 8 calls -1",
            call(false, 0, -1),
            accepted(1, entrypoint),
        ),
        example(
            "version 1, type 1, symbol 0x20, bytes 4",
            relocation(1, 0x20, 4),
            halves(&[(0x24, 68), (1, 76)]),
        ),
        example(
            "version 1, type 1, symbol 0xfffffffb, bytes 4",
            relocation(1, 0xffff_fffb, 4),
            halves(&[(0xffff_ffff, 68), (1, 76)]),
        ),
        example(
            "version 1, type 1, symbol 0xfffffffc, bytes 4",
            relocation(1, 0xffff_fffc, 4),
            halves(&[(0, 68), (1, 76)]),
        ),
        example(
            "version 1, type 8 in text, both halves 0",
            relocation(8, 0, 0),
            refused(29, 0),
        ),
        example(
            "version 1, type 8 in text, lower half 1",
            relocation(8, 0, 1),
            halves(&[(1, 76)]),
        ),
        example("version 1, type 0", relocation(0, 0x20, 4), refused(30, 0)),
        example("version 1, type 2", relocation(2, 0x20, 4), refused(30, 2)),
        // relocations that bring an addend, which the Rust passes over
        added(
            "version 1, type 1, symbol 0x20, bytes 4, addend 5",
            relocated(1, 0x20, 4, Some(5), None),
            halves(&[(0x25, 68), (1, 76)]),
        ),
        added(
            "version 1, type 1, symbol 0x20, bytes 4, addend 0",
            relocated(1, 0x20, 4, Some(0), None),
            halves(&[(0x20, 68), (1, 76)]),
        ),
        added(
            "version 1, type 1, symbol 2^63 + 1, addend 2^63 - 1: the sum stops",
            relocated(1, (1 << 63) + 1, 4, Some(i64::MAX), None),
            halves(&[(u32::MAX, 68), (u32::MAX, 76)]),
        ),
        added(
            "version 1, type 1, addend -1",
            relocated(1, 0x20, 4, Some(-1), None),
            refused(47, 0),
        ),
        added(
            "version 1, type 8 in text, lower half 1, addend 0",
            relocated(8, 0, 1, Some(0), None),
            refused(29, 0),
        ),
        added(
            "version 1, type 8 in text, both halves 0, addend 1",
            relocated(8, 0, 0, Some(1), None),
            halves(&[(1, 68), (1, 76)]),
        ),
        added(
            "version 1, type 8 in text, addend 2^63",
            relocated(8, 0, 1, Some(i64::MIN), None),
            refused(47, 0),
        ),
        added(
            "version 1, type 8 in the file's last 8 bytes, addend 5",
            relocated(8, 0, 0, Some(5), Some(0)),
            halves(&[(5, 616), (1, 620)]),
        ),
        added(
            "version 1, type 8 in the file's last 8 bytes, addend 2^32",
            relocated(8, 0, 0, Some(1 << 32), Some(0)),
            halves(&[(2, 620)]),
        ),
        added(
            "version 1, type 8 one byte behind that, addend 5",
            relocated(8, 0, 0, Some(5), Some(1)),
            refused(33, 0),
        ),
        added(
            "version 1, type 8 one byte behind that, addend -1",
            relocated(8, 0, 0, Some(-1), Some(1)),
            refused(47, 0),
        ),
        added(
            "version 1, type 2, addend -1",
            relocated(2, 0x20, 4, Some(-1), None),
            refused(30, 2),
        ),
        added(
            "version 1, type 10 of a built-in, in the text, addend -1",
            with(call_by_name(None, Some(-1)), ALL, abort),
            halves(&[(abort, 68)]),
        ),
        example("empty section at 0", empty_at(0), accepted(2, 0)),
        example("empty section at 1", empty_at(1), refused(7, 0)),
        example("empty section at 10", empty_at(10), refused(7, 0)),
        example("empty section at 63", empty_at(63), refused(7, 0)),
        example("empty section at 64", empty_at(64), accepted(2, 0)),
        example(
            "version 2, 9 program headers",
            headers(true, 9),
            accepted(2, 0),
        ),
        example(
            "version 2, 10 program headers",
            headers(true, 10),
            refused(2, 0),
        ),
        example(
            "version 1, 10 program headers",
            headers(false, 10),
            accepted(1, entrypoint),
        ),
        example(
            "version 2, text ending at 0x200000000",
            ending(8, None),
            accepted(2, 0),
        ),
        example(
            "version 2, text ending at 0x200000001",
            ending(9, None),
            refused(33, 0),
        ),
        example(
            "version 2, text ending at 0x200000000, slot 0 calls 9",
            ending(8, far),
            refused(23, 0),
        ),
        example(
            "version 2, text ending at 0x200000001, slot 0 calls 9",
            ending(9, far),
            refused(33, 0),
        ),
        example(
            "version 2, entry at the text's end",
            entry(true, 8),
            refused(20, 0),
        ),
        example(
            "version 1, entry at the text's end",
            entry(false, 8),
            refused(20, 0),
        ),
        example(
            "version 2, entry one byte before that",
            entry(true, 7),
            refused(21, 0),
        ),
        example(
            "version 2, entry one byte before the text",
            entry(true, u64::MAX),
            refused(20, 0),
        ),
        example("e_shstrndx 0 of 3", names(0), refused(9, 0)),
        example("e_shstrndx 1 of 3, the text", names(1), refused(3, 0)),
        example("e_shstrndx 2 of 3", names(2), accepted(2, 0)),
        example("e_shstrndx 3 of 3", names(3), refused(1, 0)),
        example("file of 16,777,216 bytes", long(LONGEST), accepted(2, 0)),
        added(
            "file of 16,777,217 bytes",
            long(LONGEST + 1),
            refused(40, 0),
        ),
        example(
            "version 1, table of 1 row, full with a row under the entrypoint key",
            labelled("entrypoint", 1),
            accepted(1, entrypoint),
        ),
        added(
            "version 1, table of 1 row, full with a row under another key",
            labelled("other", 1),
            refused(43, 1),
        ),
        example(
            "version 1, text at 0x200000000, broken files taken",
            text_at(PROGRAM_START, None),
            accepted(1, entrypoint),
        ),
        example(
            "version 1, text at 0x200000001, broken files taken",
            text_at(PROGRAM_START + 1, None),
            refused(33, 0),
        ),
        example(
            "version 1, text at 0x200000000, broken files taken, slot 0 calls 9",
            text_at(PROGRAM_START, far),
            refused(23, 0),
        ),
        example(
            "version 1, text at 0x200000001, broken files taken, slot 0 calls 9",
            text_at(PROGRAM_START + 1, far),
            refused(33, 0),
        ),
        // the name stands behind the header, the text, the section itself and the name .text
        example(
            "section .data, flags 3",
            flagged(".data", 3),
            Told::Refused([28, 0, 95, 5]),
        ),
        example(
            "section .data, flags 7",
            flagged(".data", 7),
            Told::Refused([28, 0, 95, 5]),
        ),
        example(
            "section .data, flags 1",
            flagged(".data", 1),
            accepted(2, 0),
        ),
        example(
            "section .data, flags 2",
            flagged(".data", 2),
            accepted(2, 0),
        ),
        example(
            "section .data.rel, flags 3",
            flagged(".data.rel", 3),
            accepted(2, 0),
        ),
        example(
            "section .bss, flags 0",
            flagged(".bss", 0),
            Told::Refused([28, 0, 95, 4]),
        ),
        contents(
            "contents of section 0 of 3",
            PLAIN.case(),
            0,
            refused(46, 0),
        ),
        contents(
            "contents of section 1 of 3, the text",
            PLAIN.case(),
            1,
            Told::Place(64, 16),
        ),
        contents(
            "contents of section 3 of 3",
            PLAIN.case(),
            3,
            refused(45, 0),
        ),
        contents(
            "contents of .rodata, type 1",
            rodata(1),
            2,
            Told::Place(80, 8),
        ),
        contents("contents of .rodata, type 0", rodata(0), 2, refused(46, 0)),
        contents(
            "contents of .rodata, type 8",
            rodata(8),
            2,
            Told::Place(0, 0),
        ),
        // a load reads a header of type 0 as any other
        example(
            "version 1, .rodata with a header of type 1",
            rodata(1),
            accepted(1, entrypoint),
        ),
        example(
            "version 1, .rodata with a header of type 0",
            rodata(0),
            accepted(1, entrypoint),
        ),
        example(
            "version 1, type 10 of a built-in, in the text",
            with(named_call(None), ALL, abort),
            halves(&[(abort, 68)]),
        ),
        example(
            "version 1, type 10 of a built-in, key in the file's last 4 bytes",
            with(named_call(Some(0)), ALL, abort),
            halves(&[(abort, 692)]),
        ),
        example(
            "version 1, type 10 of a built-in, key one byte behind that",
            with(named_call(Some(1)), ALL, abort),
            refused(33, 0),
        ),
        // each setting off, where that changes something
        example(
            "version 1, label at slot 1",
            labelled("other", ROWS),
            // the name stands behind the header, the text, the symbol and a zero byte
            Told::Accepted(
                [1, 0, 2, 0],
                vec![[key_1, 1, 1, 105, 5], [entrypoint, 0, 2, 0, 10]],
                Vec::new(),
            ),
        ),
        example(
            "the same, labels off",
            with(labelled("other", ROWS), ALL ^ LABELS, 0),
            accepted(1, entrypoint),
        ),
        example(
            "version 1, type 10 of a name that no built-in has",
            named_call(None),
            Told::Refused([22, 64, 185, 5]),
        ),
        example(
            "the same, broken files taken",
            with(named_call(None), ALL ^ REJECT_BROKEN, 0),
            halves(&[(abort, 68)]),
        ),
        example(
            "version 1, slot 3 of 8 calls 3, a built-in has the key",
            with(call(false, 0, 3), ALL, key_7),
            refused(24, key_7 as u64),
        ),
        example(
            "the same, collisions not checked",
            with(call(false, 0, 3), ALL ^ COLLISION_CHECK, key_7),
            Told::Accepted(
                [1, 0, 2, 1],
                vec![[entrypoint, 0, 2, 0, 10], [key_7, 7, 3, 0, 0]],
                vec![(key_7, immediate_at)],
            ),
        ),
        example("version 1", version_1.case(), accepted(1, entrypoint)),
        example(
            "the same, not optimized: the read-only bytes are copied",
            with(version_1.case(), ALL ^ OPTIMIZE, 0),
            accepted(1, entrypoint),
        ),
        example(
            "version 2, not optimized",
            with(PLAIN.case(), ALL ^ OPTIMIZE, 0),
            refused(34, 0),
        ),
        example(
            "version 1, where it is not enabled",
            with(version_1.case(), ALL ^ V1, 0),
            refused(34, 0),
        ),
        example(
            "version 1, where version 2 is not enabled",
            with(version_1.case(), ALL ^ V2, 0),
            accepted(1, entrypoint),
        ),
        example(
            "version 2, where it is not enabled",
            with(PLAIN.case(), ALL ^ V2, 0),
            refused(34, 0),
        ),
        example(
            "version 2, where version 1 is not enabled",
            with(PLAIN.case(), ALL ^ V1, 0),
            accepted(2, 0),
        ),
        wrote("who wrote byte 0", PLAIN.case(), 0, by_file.clone()),
        wrote(
            "who wrote the last byte",
            PLAIN.case(),
            small_len - 1,
            by_file.clone(),
        ),
        wrote(
            "who wrote the byte behind the last",
            PLAIN.case(),
            small_len,
            refused(45, 0),
        ),
        wrote(
            "who wrote byte 3 of a call",
            call(true, 1, 3),
            called - 1,
            by_file.clone(),
        ),
        wrote(
            "who wrote byte 4 of a call",
            call(true, 1, 3),
            called,
            by_call.clone(),
        ),
        wrote(
            "who wrote byte 7 of a call",
            call(false, 0, 3),
            called + 3,
            by_call.clone(),
        ),
        wrote(
            "who wrote the byte behind a call",
            call(true, 1, 3),
            called + 4,
            by_file.clone(),
        ),
        wrote(
            "who wrote byte 4 of a call of -1",
            call(true, 1, -1),
            called,
            by_file.clone(),
        ),
        wrote(
            "who wrote byte 4 of a call with source 0, version 2",
            call(true, 0, 4),
            called,
            by_file.clone(),
        ),
        wrote(
            "who wrote a byte of a load that is refused",
            call(true, 1, 4),
            called,
            refused(23, 3),
        ),
        wrote(
            "who wrote byte 3 at a relocation of type 1",
            relocation(1, 0x20, 4),
            67,
            by_file.clone(),
        ),
        wrote(
            "who wrote byte 4 at a relocation of type 1",
            relocation(1, 0x20, 4),
            68,
            by_relocation.clone(),
        ),
        wrote(
            "who wrote byte 8 at a relocation of type 1",
            relocation(1, 0x20, 4),
            72,
            by_file.clone(),
        ),
        // the upper half is 0 before and afterwards
        wrote(
            "who wrote byte 15 at a relocation of type 1",
            relocation(1, 0x20, 4),
            79,
            by_relocation.clone(),
        ),
        wrote(
            "who wrote byte 0 at a relocation of type 8, out of the text",
            at_the_end(),
            end - 8,
            by_relocation.clone(),
        ),
        wrote(
            "who wrote the byte before a relocation of type 8, out of the text",
            at_the_end(),
            end - 9,
            by_file.clone(),
        ),
        wrote(
            "who wrote byte 7 at a relocation of type 8, out of the text",
            at_the_end(),
            end - 1,
            by_relocation.clone(),
        ),
        wrote(
            "who wrote byte 4 at a relocation of type 10",
            with(named_call(None), ALL, abort),
            68,
            by_relocation.clone(),
        ),
        wrote(
            "who wrote byte 12 at a relocation of type 10",
            with(named_call(None), ALL, abort),
            76,
            by_file.clone(),
        ),
    ]
}

/// Symbols by their names. The hash of lift is 0x72fd4, of lower 0x736dc2, of drop 0x6b960.
fn symbol_examples() -> Vec<Example> {
    let asked = |what, symbols, name, expected| Example {
        what,
        asked: Asked::Symbol(name),
        case: Small {
            symbols: Some(symbols),
            program_headers: symbols.segment.is_some() as usize,
            ..LEAST
        }
        .case(),
        expected,
        asks_rust: true,
    };
    let numbers = |numbers| Symbols { numbers, ..NAMED };
    let address = |address| Symbols {
        address: Some(address),
        ..NAMED
    };
    let segment = |address| Symbols {
        address: Some(address),
        segment: Some(address),
        ..NAMED
    };
    let buckets_behind_end = |behind| Symbols {
        buckets_behind_end: Some(behind),
        ..NAMED
    };
    let st_names = |st_names| Symbols { st_names, ..NAMED };
    let (found, none) = (|number| Told::Symbol(1, number), Told::Symbol(0, 0));
    let bad = refused(48, 0);
    let circle = numbers(&[1, 3, 1, 0, 2, 1]);
    // a hash of 0xd0; sums of 64 bits would make it 0x1000000d0, which is another bucket of three
    let long_sum = b"\xf0\xfe\x10\xfe\x10\xfe\xf0";
    let in_bucket_1 = Symbols {
        st_names: [0, 1, 0],
        names: b"\0\xf0\xfe\x10\xfe\x10\xfe\xf0\0",
        numbers: &[3, 3, 0, 1, 0, 0, 0, 0],
        ..NAMED
    };
    vec![
        asked("symbol lift", NAMED, b"lift", found(1)),
        asked("symbol lower", NAMED, b"lower", found(2)),
        asked(
            "symbol drop, which there is not",
            NAMED,
            b"drop",
            none.clone(),
        ),
        asked("symbol lif", NAMED, b"lif", none.clone()),
        asked(
            "symbol lift and a zero byte",
            NAMED,
            b"lift\0",
            none.clone(),
        ),
        asked(
            "symbol without a name: 0 is no answer",
            NAMED,
            b"",
            none.clone(),
        ),
        asked(
            "symbol lift, which 0 carries",
            st_names([1, 0, 6]),
            b"lift",
            none.clone(),
        ),
        asked("symbol without a name", st_names([0, 0, 6]), b"", found(1)),
        asked(
            "symbol lift, two of them, the second first on the chain",
            Symbols {
                st_names: [0, 1, 1],
                ..numbers(&[1, 3, 2, 0, 0, 1])
            },
            b"lift",
            found(2),
        ),
        asked(
            "symbol by a hash that has a sum past 32 bits",
            in_bucket_1,
            long_sum,
            found(1),
        ),
        // 0xa019be4, after high bits were folded in: bucket 1 of three
        asked(
            "symbol entrypoint, three buckets",
            Symbols {
                names: b"\0entrypoint\0",
                ..in_bucket_1
            },
            b"entrypoint",
            found(1),
        ),
        // all three hashes are even
        asked(
            "symbol lift, two buckets",
            numbers(&[2, 3, 1, 2, 0, 0, 0]),
            b"lift",
            found(1),
        ),
        asked(
            "symbol lift, two buckets, in the other one",
            numbers(&[2, 3, 2, 1, 0, 0, 0]),
            b"lift",
            none.clone(),
        ),
        asked("symbol lift, no table", address(0), b"lift", bad.clone()),
        asked(
            "symbol lower, table by a program header",
            segment(0x1000),
            b"lower",
            found(2),
        ),
        // the address 0 is none, also where something stands there
        asked("symbol lift, table at 0", segment(0), b"lift", bad.clone()),
        asked(
            "symbol lift, table nowhere",
            address(8),
            b"lift",
            bad.clone(),
        ),
        asked(
            "symbol lift, no buckets",
            numbers(&[0, 3, 1, 0, 2, 0]),
            b"lift",
            bad.clone(),
        ),
        asked(
            "symbol lift, 2 chains for 3 symbols",
            numbers(&[1, 2, 1, 0, 2, 0]),
            b"lift",
            bad.clone(),
        ),
        asked(
            "symbol lift, 4 chains for 3 symbols",
            numbers(&[1, 4, 1, 0, 2, 0]),
            b"lift",
            bad.clone(),
        ),
        // 137 buckets: lift's, number 127, is a zero of the last section header
        asked(
            "symbol lift, buckets up to the file's end",
            buckets_behind_end(0),
            b"lift",
            none.clone(),
        ),
        asked(
            "symbol lift, buckets past the file's end",
            buckets_behind_end(1),
            b"lift",
            bad.clone(),
        ),
        asked(
            "symbol lift, index 3 of 3 first",
            numbers(&[1, 3, 3, 0, 2, 0]),
            b"lift",
            bad.clone(),
        ),
        asked(
            "symbol lift, index 3 of 3 behind",
            numbers(&[1, 3, 1, 0, 3, 0]),
            b"lift",
            found(1),
        ),
        asked("symbol drop in a circle", circle, b"drop", bad.clone()),
        asked("symbol lower in a circle", circle, b"lower", found(2)),
        asked(
            "symbol lower, a name that cannot be read before it",
            st_names([0, 99, 6]),
            b"lower",
            bad.clone(),
        ),
        asked(
            "symbol lift, a name that cannot be read behind it",
            st_names([0, 1, 99]),
            b"lift",
            found(1),
        ),
        Example {
            case: Small {
                symbols: Some(NAMED),
                names: Some(0),
                ..LEAST
            }
            .case(),
            ..asked(
                "symbol lift of a file that is refused",
                NAMED,
                b"lift",
                refused(9, 0),
            )
        },
    ]
}

/// How deep profiles call.
fn depth_examples() -> Vec<Example> {
    let asked = |what, case, limit, expected| Example {
        what,
        asked: Asked::Depth(limit),
        case,
        expected,
        asks_rust: true,
    };
    let chain = |n| told_depth(Ok(n));
    let stopped = |number, value| {
        told_depth(Err(Stop {
            value,
            ..only(number)
        }))
    };
    // calls: from a slot, with this source register, of a slot
    let text = |version2, slots: usize, calls: &[(usize, u8, usize)]| {
        let small = Small {
            version2,
            text_length: 8 * slots,
            ..PLAIN
        };
        let mut case = small.case();
        for (from, source, to) in calls {
            let slot = &mut case.file[64 + 8 * from..][..8];
            slot[..2].copy_from_slice(&[0x85, source << 4]);
            slot[4..].copy_from_slice(&(*to as i32 - *from as i32 - 1).to_le_bytes());
        }
        case
    };
    let chain_of_3 = || text(true, 3, &[(0, 1, 1), (1, 1, 2)]);
    // slot 0 is a call without a target in the file, of a symbol
    let named = |is_function| {
        let relocation = Relocation {
            kind: 10,
            value: if is_function { 72 } else { 0 },
            name: Some("abort"),
            behind: None,
            addend: None,
        };
        let small = Small {
            version2: false,
            slot: Some((0, 0x1085 | 0xffff_ffff << 32)),
            relocation: Some(relocation),
            ..PLAIN
        };
        let mut case = small.case();
        if is_function {
            // of a section, which makes it no built-in
            (case.file[84], case.file[86]) = (0x12, 1);
        }
        case
    };
    // one slot calls the function at slot 1, which a label names as well
    let labelled = Small {
        version2: false,
        slot: Some((0, 0x1085)),
        label: Some("lift"),
        ..PLAIN
    };
    vec![
        asked("depth of a lone entry", PLAIN.case(), 1, chain(1)),
        asked("depth of a chain of 3, limit 3", chain_of_3(), 3, chain(3)),
        asked(
            "depth of a chain of 3, limit 2",
            chain_of_3(),
            2,
            stopped(51, 3),
        ),
        asked("depth of a chain of 3, limit 0", chain_of_3(), 0, chain(3)),
        asked(
            "depth of a chain of 3, limit 65",
            chain_of_3(),
            65,
            chain(3),
        ),
        asked(
            "depth of a chain of functions of two slots",
            text(true, 4, &[(0, 1, 2), (2, 1, 3)]),
            64,
            chain(3),
        ),
        // the function at 1 has the slots 1 and 2
        asked(
            "depth of a function that calls itself",
            text(true, 3, &[(0, 1, 1), (2, 1, 1)]),
            64,
            stopped(50, 1),
        ),
        asked(
            "depth of a circle with the entry, limit 1",
            text(true, 2, &[(0, 1, 1), (1, 1, 0)]),
            1,
            stopped(50, 0),
        ),
        asked(
            "depth of a circle whose smaller index is met last",
            text(true, 5, &[(0, 1, 4), (4, 1, 2), (2, 1, 4)]),
            64,
            stopped(50, 2),
        ),
        asked(
            "depth of a circle that is not reached",
            text(true, 3, &[(1, 1, 2), (2, 1, 1)]),
            64,
            chain(1),
        ),
        asked(
            "depth of a call with source 0, version 2",
            text(true, 2, &[(0, 0, 1)]),
            64,
            chain(1),
        ),
        asked(
            "depth of a call with source 0, version 1",
            text(false, 2, &[(0, 0, 1)]),
            64,
            chain(2),
        ),
        asked(
            "depth of a call that a relocation writes",
            named(true),
            64,
            chain(2),
        ),
        asked(
            "depth of a call of a built-in",
            with(named(false), ALL, 0xb6fc_1a11),
            64,
            chain(1),
        ),
        asked(
            "depth with two rows of one index, version 1",
            labelled.case(),
            64,
            chain(2),
        ),
        asked(
            "depth of a load that is refused",
            with_rows(chain_of_3(), 2),
            64,
            refused(43, 2),
        ),
    ]
}

/// How long a title is with the spaces behind it.
const TITLE: usize = 80;

/// A record of the program's input: the title, the file's length, the settings, how many built-ins,
/// the built-in, the rows, what is asked and its number, and the file. A name stands behind the file, its
/// length is the number.
fn record(e: &Example) -> Vec<u8> {
    let case = &e.case;
    assert!(e.what.len() < TITLE && case.builtins.len() <= 1);
    let mut bytes = format!("{:TITLE$}", e.what).into_bytes();
    let numbers = [
        case.file.len() as u32,
        case.settings.bits() as u32,
        case.builtins.len() as u32,
        case.builtins.first().copied().unwrap_or(0),
        case.rows() as u32,
        match e.asked {
            Asked::Load => 0,
            Asked::File(question, _) => 1 + question as u32,
            Asked::Symbol(_) => 5,
            Asked::Wrote(_) => 6,
            Asked::Depth(_) => 7,
        },
        match e.asked {
            Asked::Load => 0,
            Asked::File(_, number) => number,
            Asked::Symbol(name) => name.len() as u32,
            Asked::Wrote(offset) => offset,
            Asked::Depth(limit) => limit,
        },
    ];
    bytes.extend(numbers.iter().flat_map(|n| n.to_le_bytes()));
    bytes.extend_from_slice(&case.file);
    if let Asked::Symbol(name) = e.asked {
        bytes.extend_from_slice(name);
    }
    bytes
}

/// The program's line: as an answer is told, with all words of an accepted one from the version on.
fn line(e: &Example) -> String {
    let answer = match e.asked {
        Asked::Load => load_line(
            e,
            &expected(&e.case).expect("the model agrees with the Rust"),
        ),
        Asked::File(..) | Asked::Symbol(_) | Asked::Wrote(_) | Asked::Depth(_) => {
            assert!(
                !e.asks_rust || rust(e) == e.expected.without_added(&e.case.file),
                "{}",
                e.what
            );
            e.expected.to_string()
        }
    };
    format!("{:TITLE$}{answer}\n", e.what)
}

fn load_line(e: &Example, x: &Expected) -> String {
    let told = Told::of(&e.case.file, &x.words, &x.table, &x.image);
    assert_eq!(told, e.expected, "{}", e.what);
    match told {
        Told::Accepted(_, rows, words) => format!(
            "accepted {}{}{}",
            told_numbers(&x.words[4..15]),
            told_rows(&rows),
            told_written(&words)
        ),
        _ => told.to_string(),
    }
}

fn all_examples() -> impl Iterator<Item = Example> {
    [examples(), symbol_examples(), depth_examples()]
        .into_iter()
        .flatten()
}

/// Writes `stdin` and `stdout` of the program: the examples that it can hold, and what the Rust answers
/// (the scope where the Rust says nothing), which must be what was worked out by hand.
pub fn write(folder: &str) {
    let (mut input, mut output) = (Vec::new(), String::new());
    for e in all_examples() {
        if e.case.file.len() <= LENT {
            input.extend(record(&e));
            output += &line(&e);
        }
    }
    fs::write(Path::new(folder).join("stdin"), &input).expect("a folder");
    fs::write(Path::new(folder).join("stdout"), &output).expect("a folder");
    println!("{} examples", output.lines().count());
}

/// MurmurHash3 x86 32-bit, seed 0: published vectors, then names that programs use and keys of
/// indices, as in crates/hash_vectors.
const HASHES: &[(&[u8], u32)] = &[
    (b"", 0x0000_0000),
    (b"\0", 0x514e_28b7),
    (b"\0\0", 0x30f4_c306),
    (b"\0\0\0", 0x85f0_b427),
    (b"\0\0\0\0", 0x2362_f9de),
    (b"\x21", 0x7266_1cf4),
    (b"\x21\x43", 0xa0f7_b07a),
    (b"\x21\x43\x65", 0x7e4a_8634),
    (b"\x21\x43\x65\x87", 0xf55b_516b),
    (b"\xff\xff\xff\xff", 0x7629_3b50),
    (b"test", 0xba6b_d213),
    (b"Hello, world!", 0xc036_3e43),
    (b"The quick brown fox jumps over the lazy dog", 0x2e4f_f723),
    (b"entrypoint", 0x71e3_cf81),
    (b"abort", 0xb6fc_1a11),
    (b"sol_log_", 0x2075_59bd),
    (&0u64.to_le_bytes(), 0x6385_2afc),
    (&255u64.to_le_bytes(), 0xfcdb_09b7),
    (&256u64.to_le_bytes(), 0xb2ab_22aa),
    (&0xffff_ffffu64.to_le_bytes(), 0x291f_3def),
    (&0x1_0000_0000u64.to_le_bytes(), 0x3ad8_5688),
    (&u64::MAX.to_le_bytes(), 0x6275_64e8),
];

/// Prints a line for each, and answers how many differ.
pub fn run() -> usize {
    let mut differences = 0;
    let mut line = |same: bool, text: String| {
        println!("{} {text}", if same { "same      " } else { "DIFFERENCE" });
        differences += !same as usize;
    };
    line(
        LOADLIST == PLAIN.file(),
        "the input of loadlist and the file built here".into(),
    );
    for e in all_examples() {
        let got = port(&e);
        let (rust, asked) = match e.asks_rust {
            true => (rust(&e), e.expected.without_added(&e.case.file)),
            false => ("is not asked".to_string(), "is not asked".to_string()),
        };
        // every byte, word and number, with zeros after a refusal
        let whole = loads::compare(&e.case, &mut loads::Counts::default());
        let mut text = format!(
            "{} ({} bytes): expected {}; port {got}; Rust {rust}",
            e.what,
            e.case.file.len(),
            e.expected
        );
        if let Err(difference) = &whole {
            text += &format!("\n    {difference}");
        }
        line(got == e.expected && rust == asked && whole.is_ok(), text);
    }
    for (name, expected) in HASHES {
        let (rust, port) = (outcome::hash(name), port::hash(name));
        line(
            rust == *expected && port == *expected,
            format!(
                "hash of \"{}\": expected {expected:08x}, port {port:08x}, Rust {rust:08x}",
                name.escape_ascii()
            ),
        );
    }
    println!("{differences} differences");
    differences
}
