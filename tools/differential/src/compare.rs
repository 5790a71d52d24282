//! Asks the proved functions and the Rust the same, and says where they differ.

use crate::{
    cases::Case,
    dynamic::{self, Linked},
    elf::{PROGRAM_START, STACK_START, SYMBOLS},
    finding, model,
    outcome::{self, parser_refusal, Refused},
    port::{self, Answer, Columns, Question, WORDS},
    random::Random,
};
use rbpf::elf_parser::{types::Elf64Shdr, Elf64, ElfParserError};
use std::collections::BTreeMap;

/// How often each answer came, by what was asked.
pub type Histogram = BTreeMap<(&'static str, u32), u64>;

/// Bytes at a chosen distance from a place that is aligned to 16.
pub struct Placed {
    words: Vec<u128>,
    shift: usize,
    len: usize,
}

impl Placed {
    pub fn new() -> Placed {
        Placed {
            words: Vec::new(),
            shift: 0,
            len: 0,
        }
    }

    pub fn put(&mut self, bytes: &[u8], shift: usize) {
        let n = (bytes.len() + shift) / 16 + 1;
        if self.words.len() < n {
            self.words.resize(n, 0);
        }
        self.shift = shift;
        self.len = bytes.len();
        let to = unsafe {
            std::slice::from_raw_parts_mut(
                (self.words.as_mut_ptr() as *mut u8).add(shift),
                bytes.len(),
            )
        };
        to.copy_from_slice(bytes);
    }

    pub fn bytes(&self) -> &[u8] {
        unsafe {
            std::slice::from_raw_parts((self.words.as_ptr() as *const u8).add(self.shift), self.len)
        }
    }
}

/// What the lent words must hold: the words, as many as there is room for, and zeros behind them.
pub fn written(words: &[u64], room: usize) -> Vec<u64> {
    let mut all = vec![0; room];
    for (to, from) in all.iter_mut().zip(words) {
        *to = *from;
    }
    all
}

/// An answer against the words that must come.
pub fn same(what: &str, got: &Answer, words: [u64; WORDS], room: usize) -> Result<(), String> {
    let expected = (words[0] as u32, written(&words, room));
    if *got == expected {
        return Ok(());
    }
    Err(format!("{what}\n  port: {got:?}\n  Rust: {expected:?}"))
}

/// A refusal of the Rust against an answer. The place of a name is not in the Rust: the bytes at
/// the port's place must be the Rust's text.
fn refusal(
    what: &str,
    file: &[u8],
    got: &Answer,
    full: &Answer,
    refused: &Refused,
    room: usize,
) -> Result<(), String> {
    let mut words = [0; WORDS];
    words[0] = refused.number as u64;
    words[1] = refused.value;
    if let Some(name) = &refused.name {
        let (start, length) = (full.1[2], full.1[3]);
        let bytes = start
            .checked_add(length)
            .and_then(|end| file.get(start as usize..end as usize))
            .map(|bytes| String::from_utf8_lossy(bytes).into_owned().into_bytes());
        if bytes.as_ref() != Some(name) {
            return Err(format!(
                "{what}\n  port: {full:?}, the name {bytes:?}\n  Rust: {refused:?}"
            ));
        }
        words[2] = start;
        words[3] = length;
    }
    same(what, got, words, room)
}

fn number_of<T>(answer: &Result<T, ElfParserError>) -> u32 {
    match answer {
        Ok(_) => 0,
        Err(err) => outcome::parser_number(err),
    }
}

/// The places of a table: its offset and the number of its entries, zeros where there is none.
fn table_place<T>(base: &[u8], table: Option<&[T]>) -> (u64, u64) {
    match table {
        Some(t) => (
            (t.as_ptr() as usize - base.as_ptr() as usize) as u64,
            t.len() as u64,
        ),
        None => (0, 0),
    }
}

fn place_words(start: u64, length: u64) -> [u64; WORDS] {
    let mut words = [0; WORDS];
    words[4] = start;
    words[5] = length;
    words
}

pub struct Comparer {
    aligned: Placed,
    shifted: Placed,
    pub histogram: Histogram,
}

impl Comparer {
    pub fn new() -> Comparer {
        Comparer {
            aligned: Placed::new(),
            shifted: Placed::new(),
            histogram: Histogram::new(),
        }
    }

    fn count(&mut self, what: &'static str, number: u32) {
        *self.histogram.entry((what, number)).or_insert(0) += 1;
    }

    /// The parse, and every question to what it leaves.
    pub fn reader(&mut self, case: &Case) -> Result<(), String> {
        let (mut aligned, mut shifted) = (Placed::new(), Placed::new());
        std::mem::swap(&mut aligned, &mut self.aligned);
        std::mem::swap(&mut shifted, &mut self.shifted);
        aligned.put(&case.file, 0);
        shifted.put(&case.file, case.shift);
        let result = self.reader_of(case, aligned.bytes(), shifted.bytes());
        self.aligned = aligned;
        self.shifted = shifted;
        result
    }

    /// `bytes` are aligned, for the Rust; `file` are the same for the port.
    fn reader_of(&mut self, case: &Case, bytes: &[u8], file: &[u8]) -> Result<(), String> {
        if !dynamic::has_relas(bytes) {
            return self.reader_as(
                case,
                bytes,
                Elf64::parse(bytes).map(|elf| (elf, None)),
                file,
            );
        }
        // the Rust passes over relocations that bring an addend: it reads the file without the dynamic
        // table, which is read apart
        self.count("files with relocations that bring an addend", 0);
        let placed = dynamic::without(bytes);
        let front = placed.bytes();
        let elf = Elf64::parse(front).expect("it was parsed before");
        match dynamic::linked(bytes) {
            Ok(linked) => self.reader_as(case, front, Ok((elf, Some(linked))), file),
            Err(number) => self.reader_as(case, front, Err(outcome::parser_error(number)), file),
        }
    }

    /// `bytes` are those that the Rust has parsed; where the dynamic table was read apart from it, what that
    /// leads to is beside its answer.
    fn reader_as(
        &mut self,
        case: &Case,
        bytes: &[u8],
        parsed: Result<(Elf64, Option<Linked>), ElfParserError>,
        file: &[u8],
    ) -> Result<(), String> {
        let room = case.room;
        let full = port::parse(file, WORDS);
        let got = if room == WORDS {
            full.clone()
        } else {
            port::parse(file, room)
        };
        let (elf, apart) = match parsed {
            Ok(read) => read,
            Err(err) => {
                let mut refused = parser_refusal(err);
                if dynamic::parse_number(file) != refused.number {
                    return Err(format!(
                        "the refusal read apart is {}\n  Rust: {refused:?}",
                        dynamic::parse_number(file)
                    ));
                }
                if refused.number == 4 {
                    refused.number = outcome::unclosed(model::unclosed_name(file).1 < 16);
                }
                self.count("parse", refused.number);
                refusal("parse", file, &got, &full, &refused, room)?;
                // every question has the refusal of the parse
                for question in [
                    Question::SectionPlace,
                    Question::SectionName,
                    Question::SymbolName,
                    Question::DynamicSymbolName,
                ] {
                    let answer = port::ask(question, file, case.asked[0], room);
                    refusal(
                        &format!("{question:?} of a file that is refused"),
                        file,
                        &answer,
                        &full,
                        &refused,
                        room,
                    )?;
                }
                refusal(
                    "a symbol by its name of a file that is refused",
                    file,
                    &port::find_symbol(file, b"entrypoint", room),
                    &full,
                    &refused,
                    room,
                )?;
                return refusal(
                    "symbol table of a file that is refused",
                    file,
                    &port::symbol_table(file, room),
                    &full,
                    &refused,
                    room,
                );
            }
        };

        self.count("parse", 0);

        // the layout
        let headers = elf.section_header_table();
        let header_named = |name: &[u8]| {
            headers
                .iter()
                .find(|h| elf.section_name(h.sh_name).as_ref() == Ok(&name))
                .map_or(0, |h| {
                    (h as *const Elf64Shdr as usize - bytes.as_ptr() as usize) as u64
                })
        };
        let mut words = [0; WORDS];
        (words[4], words[5]) = table_place(bytes, Some(elf.program_header_table()));
        (words[6], words[7]) = table_place(bytes, Some(headers));
        words[8] = words[6] + 64 * elf.file_header().e_shstrndx as u64;
        words[9] = header_named(b".symtab");
        words[10] = header_named(b".strtab");
        words[11] = header_named(b".dynstr");
        let linked = apart.unwrap_or_else(|| Linked {
            relocations: table_place(bytes, elf.dynamic_relocations_table()),
            relas: (0, 0),
            symbols: table_place(bytes, elf.dynamic_symbol_table()),
        });
        (words[12], words[13]) = linked.relocations;
        (words[14], words[15]) = linked.symbols;
        (words[16], words[17]) = linked.relas;
        words[18] = dynamic::hash_table(file);
        same("parse", &got, words, room)?;
        if apart.is_none() && dynamic::linked(file) != Ok(linked) {
            return Err(format!(
                "the dynamic table read apart\n  here: {:?}\n  Rust: {linked:?}",
                dynamic::linked(file)
            ));
        }

        self.symbols_by_name(&elf, linked, file, room)?;

        // the symbol table
        let table = elf.symbol_table();
        self.count("symbol table", number_of(&table));
        let got = port::symbol_table(file, room);
        match table {
            Ok(table) => {
                let (at, n) = table_place(bytes, table);
                same("symbol table", &got, place_words(at, n), room)?;
            }
            Err(err) => refusal(
                "symbol table",
                file,
                &got,
                &port::symbol_table(file, WORDS),
                &parser_refusal(err),
                room,
            )?,
        }

        // contents by index
        let mut indices: Vec<u32> = (0..headers.len().min(24) as u32).collect();
        indices.push(headers.len() as u32);
        indices.push(case.asked[0]);
        for index in indices {
            let mut words = [0; WORDS];
            match headers.get(index as usize) {
                None => words[0] = 45,
                // the Rust has a range for it; the request says that its members have no meaning
                Some(header) if header.sh_type == 0 => words[0] = 46,
                Some(header) => {
                    let range = header.file_range().unwrap_or_default();
                    words = place_words(range.start as u64, range.len() as u64);
                }
            }
            self.count("section contents", words[0] as u32);
            same(
                &format!("contents of section {index}"),
                &port::ask(Question::SectionPlace, file, index, room),
                words,
                room,
            )?;
        }

        // names by string offset
        let sizes = |at: u64| {
            if at == 0 {
                0
            } else {
                headers[((at - words[6]) / 64) as usize].sh_size
            }
        };
        for (question, header_at, most, what) in [
            (Question::SectionName, words[8], 16, "section name"),
            (Question::SymbolName, words[10], 64, "symbol name"),
            (
                Question::DynamicSymbolName,
                words[11],
                64,
                "dynamic symbol name",
            ),
        ] {
            let section_size = sizes(header_at);
            let size = section_size as u32;
            let mut offsets = case.asked.clone();
            for back in [0, 1, 15, 16, 17, 63, 64, 65] {
                offsets.push(size.wrapping_sub(back));
            }
            offsets.push(size.wrapping_add(1));
            offsets.push(size / 2);
            match question {
                Question::SectionName => offsets.extend(headers.iter().take(12).map(|h| h.sh_name)),
                Question::SymbolName => offsets.extend(
                    elf.symbol_table()
                        .ok()
                        .flatten()
                        .unwrap_or_default()
                        .iter()
                        .take(4)
                        .map(|s| s.st_name),
                ),
                _ => offsets.extend(
                    elf.dynamic_symbol_table()
                        .unwrap_or_default()
                        .iter()
                        .take(4)
                        .map(|s| s.st_name),
                ),
            }
            for offset in offsets {
                let name = match question {
                    Question::SectionName => elf.section_name(offset),
                    Question::SymbolName => elf.symbol_name(offset),
                    _ => elf.dynamic_symbol_name(offset),
                };
                let name = name.map_err(|err| {
                    let mut refused = parser_refusal(err);
                    if refused.number == 4 {
                        let cut = section_size < offset as u64 + most;
                        refused.number = outcome::unclosed(cut);
                    }
                    refused
                });
                self.count(what, name.as_ref().map_or_else(|r| r.number, |_| 0));
                let got = port::ask(question, file, offset, room);
                let what = format!("{what} at {offset}");
                match name {
                    Ok(name) => {
                        let start = name.as_ptr() as usize - bytes.as_ptr() as usize;
                        same(
                            &what,
                            &got,
                            place_words(start as u64, name.len() as u64),
                            room,
                        )?;
                    }
                    Err(refused) => refusal(
                        &what,
                        file,
                        &got,
                        &port::ask(question, file, offset, WORDS),
                        &refused,
                        room,
                    )?,
                }
            }
        }
        Ok(())
    }

    /// Dynamic symbols by names that they have, that are near those, and that none has.
    fn symbols_by_name(
        &mut self,
        elf: &Elf64,
        linked: Linked,
        file: &[u8],
        room: usize,
    ) -> Result<(), String> {
        let name_of = |st_name: u32| elf.dynamic_symbol_name(st_name).ok();
        let (table, count) = linked.symbols;
        let offsets = (0..count.min(6)).map(|k| dynamic::get(file, table + 24 * k, 4) as u32);
        let mut names: Vec<Vec<u8>> = offsets.filter_map(name_of).map(<[u8]>::to_vec).collect();
        if let Some(name) = names.last().cloned() {
            names.push([&name[..], b"\0"].concat());
            names.push([&name[..], b"x"].concat());
            names.push(name[..name.len() - name.len().min(1)].to_vec());
        }
        // as many names as there are take turns
        let turn = file.len() % SYMBOLS.len();
        names.extend([&b"entrypoint"[..], b"", SYMBOLS[turn]].map(<[u8]>::to_vec));
        for name in names {
            let mut words = [0; WORDS];
            match finding::find_symbol(file, linked.symbols, name_of, &name) {
                Ok(found) => {
                    words[4] = found.is_some() as u64;
                    words[5] = found.unwrap_or(0) as u64;
                    self.count("symbol by name", words[4] as u32);
                }
                Err(why) => {
                    words[0] = 48;
                    self.count("symbol by name", 48);
                    self.count(why, 48);
                }
            }
            same(
                &format!("symbol by the name \"{}\"", name.escape_ascii()),
                &port::find_symbol(file, &name, room),
                words,
                room,
            )?;
        }
        Ok(())
    }

    /// Hashes of random names.
    pub fn hashes(&mut self, r: &mut Random) -> Result<(), String> {
        for _ in 0..2 {
            let n = if r.one_in(50) {
                r.below(3000)
            } else {
                r.below(80)
            };
            let name: Vec<u8> = (0..n).map(|_| r.next() as u8).collect();
            let (got, expected) = (port::hash(&name), outcome::hash(&name));
            self.count("hash", 0);
            if got != expected {
                return Err(format!(
                    "hash of {name:02x?}\n  port: {got:#x}\n  Rust: {expected:#x}"
                ));
            }
        }
        Ok(())
    }

    /// The text part of answers that no load made.
    pub fn text_place(&mut self, r: &mut Random, room: usize) -> Result<(), String> {
        let mut number = || match r.below(4) {
            0 => r.pick(&[PROGRAM_START, STACK_START, 0, u64::MAX, 1 << 63]),
            1 => PROGRAM_START.wrapping_add(r.below(64)),
            2 => 0u64.wrapping_sub(r.below(64)),
            _ => r.below(64),
        };
        let [lent, offset, start, n, addr, size] = std::array::from_fn(|_| number());
        let at = addr.saturating_sub(PROGRAM_START).saturating_sub(offset);
        let mut words = [0; WORDS];
        if start as u128 + n as u128 > lent as u128 || at as u128 + size as u128 > n as u128 {
            words[0] = 44;
        } else {
            words[4] = start + at;
            words[5] = size;
        }
        self.count("text place", words[0] as u32);
        same(
            &format!("text place of {lent} {offset} {start} {n} {addr} {size}"),
            &port::text_place(lent, offset, start, n, addr, size, room),
            words,
            room,
        )
    }

    /// A lookup in five columns of any lengths and contents, against a plain scan.
    pub fn lookup(&mut self, r: &mut Random, room: usize) -> Result<(), String> {
        let wide = r.one_in(3);
        let most = if r.one_in(10) { 200 } else { 20 };
        let column = |r: &mut Random| -> Vec<u32> {
            let n = r.below(most + 1);
            (0..n)
                .map(|_| {
                    if wide {
                        r.next() as u32
                    } else {
                        r.below(12) as u32
                    }
                })
                .collect()
        };
        let mut t: Columns = std::array::from_fn(|_| column(r));
        if r.one_in(2) {
            // a table as a load leaves it
            let n = t[0].len();
            t[0].sort_unstable();
            for c in t.iter_mut() {
                c.resize(n, 3);
            }
        }
        let used = r.pick(&[0, 1, most / 2, most, t[0].len() as u64, u64::MAX]);
        let key = if t[0].is_empty() || r.one_in(3) {
            r.below(12) as u32
        } else {
            t[0][r.index(t[0].len())]
        };
        let rows = t
            .iter()
            .map(|c| c.len())
            .min()
            .unwrap()
            .min(used.min(1 << 20) as usize);
        let found = |at: Option<usize>| {
            let mut words = [0; WORDS];
            if let Some(i) = at {
                words[4] = 1;
                for (k, column) in t.iter().enumerate().skip(1) {
                    words[4 + k] = column[i] as u64;
                }
            }
            words
        };
        let scanned = found((0..rows).find(|i| t[0][*i] == key));
        self.count("lookup", scanned[4] as u32);
        same(
            &format!("lookup of {key} in {used} rows of {t:?}"),
            &port::lookup(false, &t, used, key, room),
            scanned,
            room,
        )?;
        let at = binary_search(&t[0][..rows], key);
        let searched = found((at < rows && t[0][at] == key).then_some(at));
        if t[0][..rows].windows(2).all(|w| w[0] < w[1]) {
            assert_eq!(scanned, searched, "ascending rows");
        }
        self.count("lookup_ascending", searched[4] as u32);
        same(
            &format!("search for {key} in {used} rows of {t:?}"),
            &port::lookup(true, &t, used, key, room),
            searched,
            room,
        )?;
        // the index alone, by two columns, and the row's number, by the keys
        let row_among = |rows: usize| {
            let rows = rows.min(used.min(1 << 20) as usize);
            let at = binary_search(&t[0][..rows], key);
            (at < rows && t[0][at] == key).then_some(at)
        };
        let index = row_among(t[0].len().min(t[1].len())).map(|at| t[1][at]);
        self.count("index_ascending", index.is_some() as u32);
        let port = port::index(&t, used, key);
        if port != index {
            return Err(format!(
                "index of {key} in {used} rows of {t:?}\n  port {port:?}\n  here {index:?}"
            ));
        }
        let row = row_among(t[0].len());
        self.count("row_ascending", row.is_some() as u32);
        let port = port::row(&t, used, key);
        if port != row {
            return Err(format!(
                "row of {key} in {used} rows of {t:?}\n  port {port:?}\n  here {row:?}"
            ));
        }
        Ok(())
    }
}

/// Where the binary search comes to, whatever the numbers are: they are halved until one is left, and it is that
/// one's place, or the next where that one is below the key.
pub fn binary_search(keys: &[u32], key: u32) -> usize {
    let (mut base, mut size) = (0, keys.len());
    while 1 < size {
        let half = size / 2;
        if keys[base + half] <= key {
            base += half;
        }
        size -= half;
    }
    base + (size == 1 && keys[base] < key) as usize
}

/// Makes a file that differs smaller, as long as it differs: shorter first, then more zeros.
pub fn shrink(case: &Case) -> Case {
    let differs = |case: &Case| Comparer::new().reader(case).is_err();
    let mut best = case.clone();
    let mut step = best.file.len().next_power_of_two();
    while step > 0 {
        while best.file.len() >= step {
            let mut next = best.clone();
            next.file.truncate(best.file.len() - step);
            if !differs(&next) {
                break;
            }
            best = next;
        }
        step /= 2;
    }
    for step in [64, 16, 8, 4, 2, 1] {
        for at in (0..best.file.len()).step_by(step) {
            let end = (at + step).min(best.file.len());
            if best.file[at..end].iter().any(|b| *b != 0) {
                let mut next = best.clone();
                next.file[at..end].fill(0);
                if differs(&next) {
                    best = next;
                }
            }
        }
    }
    best
}
