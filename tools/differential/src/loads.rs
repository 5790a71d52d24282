//! Whole loads: asks the port, and compares every word, byte and number with what is expected.

use crate::{
    cases::Case,
    compare::{same, written, Placed},
    expected::{expected, text_in, Expected, LONGEST},
    measured, number_name,
    outcome::Text,
    port::{self, WORDS},
    writers, wrote,
};
use std::{collections::BTreeMap, fmt::Debug};

/// Entries around a lent slice, which must stay as they were.
const GUARD: usize = 16;

/// A lent slice inside a longer one, filled before with what is nowhere zero.
pub struct Guarded<T> {
    all: Vec<T>,
    len: usize,
    fill: T,
}

impl<T: Copy + PartialEq + Debug> Guarded<T> {
    pub fn new(len: usize, fill: T) -> Guarded<T> {
        Guarded {
            all: vec![fill; len + 2 * GUARD],
            len,
            fill,
        }
    }

    pub fn lend(&mut self) -> &mut [T] {
        &mut self.all[GUARD..GUARD + self.len]
    }

    pub fn held(&self) -> &[T] {
        &self.all[GUARD..GUARD + self.len]
    }

    /// Where the slice is not as expected.
    pub fn check(&self, what: &str, expected: &[T]) -> Result<(), String> {
        let outside = self.all[..GUARD]
            .iter()
            .chain(&self.all[GUARD + self.len..]);
        if outside.clone().any(|x| *x != self.fill) {
            return Err(format!("{what}: written outside the lent slice"));
        }
        if self.held() == expected {
            return Ok(());
        }
        let differ = |k: &usize| self.held()[*k] != expected[*k];
        let at = (0..self.len).find(differ).unwrap();
        let end = (at + 16).min(self.len);
        Err(format!(
            "{what} from {at} on ({} of {} differ)\n  port: {:x?}\n  Rust: {:x?}",
            (0..self.len).filter(differ).count(),
            self.len,
            &self.held()[at..end],
            &expected[at..end]
        ))
    }
}

/// What is lent to a load with a question.
pub struct Lent {
    pub image: Guarded<u8>,
    pub ro: Guarded<u8>,
    pub table: [Guarded<u32>; 5],
    pub answer: Guarded<u64>,
}

impl Lent {
    pub fn new(case: &Case) -> Lent {
        let fill = !case.garbage | 0x0101_0101_0101_0101;
        Lent {
            image: Guarded::new(case.image, fill as u8),
            ro: Guarded::new(case.ro, (fill >> 8) as u8),
            table: case.columns.map(|n| Guarded::new(n, (fill >> 16) as u32)),
            answer: Guarded::new(case.room, fill),
        }
    }

    /// That the answer has these words, and that all else is what the load alone leaves.
    pub fn check(
        &self,
        case: &Case,
        e: &Expected,
        result: u32,
        words: [u64; WORDS],
    ) -> Result<(), String> {
        let got = (result, self.answer.held().to_vec());
        same("the answer", &got, words, case.room)?;
        self.answer
            .check("the answer", &written(&words, case.room))?;
        for (column, expected) in self.table.iter().zip(&e.table) {
            column.check("a column", expected)?;
        }
        self.image.check("the image", &e.image)?;
        self.ro.check("the read-only buffer", &e.ro)
    }
}

/// How often what came.
#[derive(Default)]
pub struct Counts {
    pub cases: u64,
    /// By the number of the answer (0: accepted): how many, by the version that the file was made
    /// for, and then those of files without damage.
    pub numbers: BTreeMap<u64, [u64; 4]>,
    pub copied: [u64; 2],
    pub borrowed: [u64; 2],
    pub text_aborts: u64,
    /// Rows by kind of name.
    pub kinds: [u64; 4],
    /// Rows of an index that the constant table of keys does not have.
    pub far_rows: u64,
    pub most_rows: u64,
    /// Accepted loads into a table with no row to spare.
    pub just_fits: u64,
    /// Accepted loads whose image is not the file.
    pub relocated: u64,
    pub longest_accepted: u64,
    /// Who wrote their bytes.
    pub wrote: wrote::Counts,
    /// How deep they call.
    pub measured: measured::Counts,
}

impl Counts {
    fn count(&mut self, case: &Case, e: &Expected) {
        let version = case.version2 as usize;
        self.cases += 1;
        let row = self.numbers.entry(e.words[0]).or_default();
        row[version] += 1;
        row[2 + version] += case.sound as u64;
        if e.words[0] != 0 {
            return;
        }
        if e.words[8] == 1 {
            self.copied[version] += 1;
        } else {
            self.borrowed[version] += 1;
        }
        self.text_aborts += (e.text == Some(Text::Aborted)) as u64;
        let used = e.words[6] as usize;
        for k in 0..used {
            self.kinds[e.table[2][k] as usize] += 1;
            self.far_rows += (e.table[1][k] >= 256) as u64;
        }
        self.most_rows = self.most_rows.max(used as u64);
        self.just_fits += (case.rows() == used) as u64;
        self.relocated += (e.image[..case.file.len()] != case.file[..]) as u64;
        self.longest_accepted = self.longest_accepted.max(case.file.len() as u64);
    }

    pub fn print(&self) {
        println!("              all files            without damage");
        println!("number   version 1   version 2   version 1   version 2");
        for (n, [a, b, c, d]) in &self.numbers {
            let name = if *n == 0 {
                "accepted"
            } else {
                number_name(*n as u32)
            };
            println!("{n:>6} {a:>11} {b:>11} {c:>11} {d:>11}  {name}");
        }
        for version in 0..2 {
            let of = |n| self.numbers.get(n).map_or(0, |row| row[2 + version]);
            let sound: u64 = self.numbers.keys().map(of).sum();
            println!(
                "version {}: {} of {sound} files without damage are accepted ({:.0} %); read-only bytes of all accepted: copied {}, borrowed {}",
                version + 1,
                of(&0),
                100.0 * of(&0) as f64 / sound.max(1) as f64,
                self.copied[version],
                self.borrowed[version]
            );
        }
        println!(
            "accepted: {} with bytes relocated, {} into a table that just fits, {} whose text part is 44",
            self.relocated, self.just_fits, self.text_aborts
        );
        println!(
            "rows: {} without name, {} named by the file, {} entries, {} made from the index; {} of an index from 256; at most {} in a table; the longest file accepted has {} bytes",
            self.kinds[0], self.kinds[1], self.kinds[2], self.kinds[3], self.far_rows, self.most_rows, self.longest_accepted
        );
        // every number that a load can give
        let missing: Vec<u64> = (1..=11)
            .filter(|n| *n != 5)
            .chain(20..=34)
            .chain(40..=43)
            .chain([47, 49])
            .filter(|n| !self.numbers.contains_key(n))
            .collect();
        if missing.is_empty() && self.text_aborts > 0 {
            println!("every number that a load or its text part can give came");
        } else {
            println!(
                "never came: {missing:?}, 44 came {} times",
                self.text_aborts
            );
        }
    }
}

/// What is expected, counted. Needs no port.
pub fn expect(case: &Case, counts: &mut Counts) -> Result<Expected, String> {
    let e = expected(case)?;
    writers::agree(&case.file, &e)?;
    counts.count(case, &e);
    Ok(e)
}

/// The port's load against what is expected.
pub fn compare(case: &Case, counts: &mut Counts) -> Result<(), String> {
    let e = expect(case, counts)?;
    let mut file = Placed::new();
    file.put(&case.file, case.shift);
    let fill = case.garbage | 0x0101_0101_0101_0101;
    let mut image = Guarded::new(case.image, fill as u8);
    let mut ro = Guarded::new(case.ro, (fill >> 8) as u8);
    let mut table = case.columns.map(|n| Guarded::new(n, (fill >> 16) as u32));
    let mut answer = Guarded::new(case.room, fill);
    let result = port::load(
        file.bytes(),
        &case.builtins,
        case.settings.bits() as u32,
        image.lend(),
        ro.lend(),
        table.each_mut().map(|c| c.lend()),
        answer.lend(),
    );
    if file.bytes() != case.file {
        return Err("the file was written".to_string());
    }
    if result as u64 != e.words[0] {
        return Err(format!(
            "the result\n  port: {result}, answer {:?}\n  Rust: {:?}",
            answer.held(),
            e.words
        ));
    }
    answer.check("the answer", &written(&e.words, case.room))?;
    let names = ["keys", "indices", "kinds", "starts", "lengths"];
    for ((column, name), expected) in table.iter().zip(names).zip(&e.table) {
        column.check(name, expected)?;
    }
    image.check("the image", &e.image)?;
    ro.check("the read-only buffer", &e.ro)?;
    if port::HAS_WRITERS {
        wrote::compare(case, &e, file.bytes(), answer.held(), &mut counts.wrote)?;
    }
    if port::HAS_CALL_DEPTH {
        measured::compare(case, &e, file.bytes(), &mut counts.measured)?;
    }

    // the text part, by the port's own answer and bytes
    let Some(text) = &e.text else { return Ok(()) };
    if case.room < WORDS {
        return Ok(());
    }
    let words = answer.held();
    let copied = words[8] == 1;
    let (lent, start, n) = if copied {
        (ro.held(), 0, words[11] as usize)
    } else {
        (image.held(), words[10] as usize, words[11] as usize)
    };
    let part = text_in(&lent[start..start + n], words);
    let bytes = part.map(|(at, size)| &lent[start + at as usize..start + (at + size) as usize]);
    let same = match text {
        Text::Aborted => bytes.is_none(),
        Text::Part { vaddr, bytes: b } => *vaddr == words[12] && bytes == Some(b),
    };
    if !same {
        return Err(format!(
            "the text part\n  port: {bytes:x?}\n  Rust: {text:x?}"
        ));
    }
    if port::HAS_TEXT_PLACE {
        let mut expected = [0; WORDS];
        match part {
            None => expected[0] = 44,
            Some((at, size)) => (expected[4], expected[5]) = (start as u64 + at, size),
        }
        let got = port::text_place(
            lent.len() as u64,
            words[9],
            start as u64,
            n as u64,
            words[12],
            words[14],
            WORDS,
        );
        if got != (expected[0] as u32, expected.to_vec()) {
            return Err(format!(
                "the text place\n  port: {got:?}\n  Rust: {expected:?}"
            ));
        }
    }
    Ok(())
}

/// Makes a case that differs smaller, as long as it differs: shorter first, then more zeros, fewer
/// built-ins, no spare room.
pub fn shrink(case: &Case, differs: &dyn Fn(&Case) -> bool) -> Case {
    let mut best = case.clone();
    let take = |next: Case, best: &mut Case| {
        let better = differs(&next);
        if better {
            *best = next;
        }
        better
    };
    let mut step = best.file.len().min(LONGEST).next_power_of_two();
    while step > 0 {
        while best.file.len() >= step {
            let mut next = best.clone();
            next.file.truncate(best.file.len() - step);
            // the buffers keep their distance to the file
            next.image = next.image.saturating_sub(step);
            next.ro = next.ro.saturating_sub(step);
            if !take(next, &mut best) {
                break;
            }
        }
        step /= 2;
    }
    for step in [64, 16, 8, 4, 2, 1] {
        for at in (0..best.file.len().min(1 << 16)).step_by(step) {
            let end = (at + step).min(best.file.len());
            if best.file[at..end].iter().any(|b| *b != 0) {
                let mut next = best.clone();
                next.file[at..end].fill(0);
                take(next, &mut best);
            }
        }
    }
    for k in (0..best.builtins.len()).rev() {
        let mut next = best.clone();
        next.builtins.remove(k);
        take(next, &mut best);
    }
    for change in [
        |c: &mut Case| c.shift = 0,
        |c: &mut Case| c.room = WORDS,
        |c: &mut Case| c.columns = [c.rows(); 5],
        |c: &mut Case| c.image = c.file.len(),
        |c: &mut Case| c.ro = c.file.len(),
    ] {
        let mut next = best.clone();
        change(&mut next);
        take(next, &mut best);
    }
    best
}
