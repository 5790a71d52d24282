//! Who wrote the bytes of a load: asks the port, by the load's own words and by others, and compares with what
//! `writers` says.

use crate::{
    cases::Case,
    compare::same,
    dynamic,
    expected::{Expected, LONGEST},
    loads::{Guarded, Lent},
    model::{only, Stop},
    port::{self, WORDS},
    random::Random,
    writers::{self, Writer, Written},
};
use std::collections::BTreeMap;

/// The words of a load's answer that are used.
const LOAD_WORDS: usize = 15;
/// A longer file has all its bytes asked for only once.
const SHORT: usize = 1 << 16;
/// Bytes asked for one by one, of those at the ends of runs.
const EDGES: usize = 6;
/// One case of so many is loaded again, with the question; one of so many is asked by words that no load gave.
const WITH_LOAD: u64 = 4;
const OTHERS: u64 = 2;

/// How often a writer was told, how often the question was refused for itself, and how often with the refusal
/// of the load.
type Told = [u64; 3];

/// How often what came.
#[derive(Default)]
pub struct Counts {
    /// Bytes of accepted loads by their writer: the file, calls, relocations, those that bring an addend.
    bytes: [u64; 4],
    /// Bytes written with the value that the file has there.
    kept: u64,
    /// Bytes that a call wrote, and that a relocation wrote, and another after it.
    again: [u64; 2],
    /// By the load's own words: of one byte, of all, and with the load.
    one: Told,
    all: Told,
    with_load: Told,
    /// By words that no load gave: how often each number came.
    other: BTreeMap<u64, u64>,
    /// Of these, 2 for the program headers of a file that is parsed.
    ten_headers: u64,
}

impl Counts {
    fn count_bytes(&mut self, file: &[u8], image: &[u8], writers: &[Writer], written: &Written) {
        for ((writer, byte), before) in writers.iter().zip(image).zip(file) {
            self.bytes[match writer {
                Writer::File => 0,
                Writer::Call(_) => 1,
                Writer::Relocation(j) if (*j as u64) < written.older => 2,
                Writer::Relocation(_) => 3,
            }] += 1;
            self.kept += (*writer != Writer::File && byte == before) as u64;
        }
        for (at, n, by) in &written.writes {
            let bytes = &writers[*at as usize..(at + n) as usize];
            let over = bytes.iter().filter(|last| *last != by).count() as u64;
            self.again[matches!(by, Writer::Relocation(_)) as usize] += over;
        }
    }

    fn count_other(&mut self, number: u64) {
        *self.other.entry(number).or_insert(0) += 1;
    }

    pub fn print(&self) {
        let [file, calls, older, newer] = self.bytes;
        println!(
            "bytes of accepted loads: {file} by the file, {calls} by calls, {older} by relocations, {newer} by those with addends; {} have the file's value still, {} were written over a call's, {} over another relocation's",
            self.kept, self.again[0], self.again[1]
        );
        for (what, number, [told, refused, load]) in [
            ("who wrote one byte", 45, self.one),
            ("who wrote each byte", 41, self.all),
            ("a load with who wrote one byte", 45, self.with_load),
        ] {
            println!("{what}: {told} told, {refused} are {number}, {load} the load's refusal");
        }
        println!(
            "by words that no load gave, the numbers: {:?}; of these {} for ten program headers in version 2",
            self.other, self.ten_headers
        );
        // by such words all but 40, which is seldom
        let others = [0, 1, 33, 41, 45].map(|n| *self.other.get(&n).unwrap_or(&0));
        let own = [self.one, self.all, self.with_load].concat();
        let mut all = [&self.bytes[..], &self.again, &own, &others].concat();
        all.extend([self.kept, self.ten_headers]);
        if !all.contains(&0) {
            println!("every kind of answer about writers came");
        } else {
            println!("not every kind of answer about writers came");
        }
    }
}

/// Words that are lent, and what must come of them.
struct Asked<'a> {
    file: &'a [u8],
    loaded: &'a [u64],
    /// Words of the lent answer.
    room: usize,
    /// Who wrote each byte of the file, or the refusal.
    writers: Result<Vec<Writer>, Stop>,
}

impl<'a> Asked<'a> {
    /// And what was written, if that can be said.
    fn new(file: &'a [u8], loaded: &'a [u64], room: usize) -> (Asked<'a>, Option<Written>) {
        let written = writers::asked(file, loaded);
        let asked = Asked {
            file,
            loaded,
            room,
            writers: match &written {
                Ok(written) => Ok(writers::last(file.len(), &written.writes)),
                Err(stop) => Err(*stop),
            },
        };
        (asked, written.ok())
    }

    /// What must be told of one byte.
    fn told(&self, offset: u64) -> [u64; WORDS] {
        match &self.writers {
            Err(stop) => stop.words(),
            Ok(writers) if offset >= writers.len() as u64 => only(45).words(),
            Ok(writers) => {
                let mut words = [0; WORDS];
                words[4..6].copy_from_slice(&writers[offset as usize].words());
                words
            }
        }
    }

    /// Where an answer with this number is counted.
    fn kind(&self, number: u64) -> usize {
        match self.writers {
            Err(_) => 2,
            Ok(_) => (number != 0) as usize,
        }
    }

    /// Asks for one byte, and gives the number that is answered.
    fn one(&self, offset: u64) -> Result<u64, String> {
        let words = self.told(offset);
        let got = port::who_wrote(self.file, self.loaded, offset, self.room);
        same("", &got, words, self.room)
            .map_err(|text| format!("who wrote byte {offset}, by {:?}{text}", self.loaded))?;
        Ok(words[0])
    }

    /// Asks for all bytes, in `n` numbers.
    fn all(&self, n: usize) -> Result<u64, String> {
        let mut codes = vec![0; n];
        let words = match &self.writers {
            Err(stop) => stop.words(),
            Ok(writers) if n < writers.len() => only(41).words(),
            Ok(writers) => {
                let told = writers.iter().map(|w| w.code());
                codes.iter_mut().zip(told).for_each(|(to, code)| *to = code);
                [0; WORDS]
            }
        };
        let mut lent = Guarded::new(n, 0xa5a5_a5a5);
        let got = port::who_wrote_all(self.file, self.loaded, lent.lend(), self.room);
        same("the answer", &got, words, self.room)
            .and_then(|()| lent.check("the numbers", &codes))
            .map_err(|text| {
                let by = self.loaded;
                format!("who wrote each byte, in {n} numbers, by {by:?}: {text}")
            })?;
        Ok(words[0])
    }
}

/// Some of the first and last bytes of runs with one writer.
fn edges(r: &mut Random, writers: &[Writer]) -> Vec<u64> {
    let changes = (1..writers.len()).filter(|at| writers[*at] != writers[*at - 1]);
    let all: Vec<u64> = changes.flat_map(|at| [at as u64 - 1, at as u64]).collect();
    if all.len() <= EDGES {
        return all;
    }
    (0..EDGES).map(|_| r.pick(&all)).collect()
}

/// Words that no load of a file of this length gave: made from those of an accepted load.
fn other_words(r: &mut Random, loaded: &[u64; WORDS], len: u64) -> Vec<u64> {
    let mut words = *loaded;
    if words[0] != 0 {
        words = [0; WORDS];
        words[4] = r.range(1, 2);
    }
    match r.below(8) {
        // too few
        0 => return words[..r.index(LOAD_WORDS)].to_vec(),
        1 => words[4] = 3u64.wrapping_sub(words[4]),
        2 => words[4] = r.pick(&[0, 2, 3, 2 + (1 << 32), u64::MAX]),
        // the text about the file's end, and past all places
        3 => {
            words[14] = r.below(20);
            words[13] = (len + r.below(3)).wrapping_sub(words[14]);
        }
        4 => {
            words[13] = r.pick(&[u64::MAX, u64::MAX - 7, 1 << 63, len]);
            words[14] = r.pick(&[u64::MAX, 1 << 63, 8, 1]);
        }
        // a refusal, by the lower half of the first word
        5 => {
            words[0] = r.pick(&[
                1,
                45,
                99,
                u32::MAX as u64,
                1 << 32,
                (7 << 32) + 33,
                u64::MAX,
            ]);
            words[1..4].fill_with(|| r.next() >> r.below(64));
        }
        // the text anywhere in the file
        _ => {
            words[13] = r.below(len + 1);
            words[14] = r.below(len - words[13] + 1);
        }
    }
    words.to_vec()
}

/// The load once more, with the question about a byte: all that it leaves is the load's.
fn with_load(case: &Case, e: &Expected, asked: &Asked, offset: u64) -> Result<u64, String> {
    let told = asked.told(offset);
    let mut words = e.words;
    if e.words[0] == 0 {
        words[0] = told[0];
        words[LOAD_WORDS..LOAD_WORDS + 2].copy_from_slice(&told[4..6]);
    }
    let mut lent = Lent::new(case);
    let result = port::load_who_wrote(
        asked.file,
        &case.builtins,
        case.settings.bits() as u32,
        lent.image.lend(),
        lent.ro.lend(),
        lent.table.each_mut().map(|c| c.lend()),
        offset,
        lent.answer.lend(),
    );
    lent.check(case, e, result, words)
        .map_err(|text| format!("the load with who wrote byte {offset}: {text}"))?;
    Ok(words[0])
}

/// What is known of an accepted load, and the bytes to ask for.
fn accepted(
    r: &mut Random,
    e: &Expected,
    asked: &Asked,
    written: &Written,
    counts: &mut Counts,
) -> Result<Vec<u64>, String> {
    let writers = asked.writers.as_ref().expect("an accepted load");
    let is_kept = |at: &usize| writers[*at] != Writer::File || e.image[*at] == asked.file[*at];
    if let Some(at) = (0..writers.len()).find(|at| !is_kept(at)) {
        return Err(format!("byte {at} of the image is not the file's"));
    }
    counts.count_bytes(asked.file, &e.image, writers, written);
    let mut rooms = vec![writers.len() + r.pick(&[0, 0, 3])];
    if writers.len() <= SHORT {
        rooms.push(writers.len() - 1);
    }
    for n in rooms {
        counts.all[asked.kind(asked.all(n)?)] += 1;
    }
    let mut offsets = edges(r, writers);
    offsets.push(writers.len() as u64 - 1);
    Ok(offsets)
}

/// All questions about a load that the port has answered with `loaded`. `file` is the file as the port sees it.
pub fn compare(
    case: &Case,
    e: &Expected,
    file: &[u8],
    loaded: &[u64],
    counts: &mut Counts,
) -> Result<(), String> {
    let r = &mut Random::new(case.garbage, 1);
    // a short answer does not have what is asked for
    let whole = loaded.len() >= LOAD_WORDS;
    let loaded = if whole { loaded } else { &e.words };
    let (asked, written) = Asked::new(file, loaded, case.room);
    let mut offsets = match &written {
        Some(written) => accepted(r, e, &asked, written, counts)?,
        None => {
            counts.all[asked.kind(asked.all(r.index(100))?)] += 1;
            vec![0]
        }
    };
    let len = file.len() as u64;
    offsets.extend([len, len + 7, u64::MAX]);
    for offset in &offsets {
        counts.one[asked.kind(asked.one(*offset)?)] += 1;
    }
    if r.one_in(WITH_LOAD) {
        let number = with_load(case, e, &asked, r.pick(&offsets))?;
        counts.with_load[asked.kind(number)] += 1;
    }
    if r.one_in(OTHERS) {
        others(r, case, e, file, counts)?;
    }
    if file != case.file {
        return Err("the file was written".to_string());
    }
    Ok(())
}

/// The questions by words that no load gave.
fn others(
    r: &mut Random,
    case: &Case,
    e: &Expected,
    file: &[u8],
    counts: &mut Counts,
) -> Result<(), String> {
    let len = file.len();
    if SHORT < len && len <= LONGEST {
        return Ok(());
    }
    let loaded = other_words(r, &e.words, len as u64);
    let (asked, _) = Asked::new(file, &loaded, case.room);
    if loaded.first() == Some(&0) && asked.writers == Err(only(2)) {
        counts.ten_headers += (dynamic::parse_number(file) == 0) as u64;
    }
    counts.count_other(asked.one(r.below(len as u64 + 2))?);
    let n = match r.below(4) {
        _ if len > SHORT => 5,
        0 => r.index(len + 1),
        _ => len,
    };
    counts.count_other(asked.all(n)?);
    Ok(())
}
