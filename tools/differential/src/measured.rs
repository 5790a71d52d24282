//! How deep loads call: asks the port, by the load's own words and by others, and compares with what `depth` says.

use crate::{
    cases::Case,
    compare::same,
    depth,
    expected::Expected,
    loads::{Guarded, Lent},
    model::Stop,
    port::{self, Columns, WORDS},
    random::Random,
};
use std::collections::BTreeMap;

/// Words of a load's answer that are used.
const LOAD_WORDS: usize = 15;
/// One case of so many is loaded again, with the question; one of so many is asked by what no load left.
const WITH_LOAD: u64 = 4;
const OTHERS: u64 = 2;
/// A longer chain is counted as this one.
const LONG: u64 = 100;

/// How often what came.
#[derive(Default)]
pub struct Counts {
    /// Chains that were told, by their length.
    chains: BTreeMap<u64, u64>,
    /// By the load's own words: the numbers of the question, and how often the load's refusal.
    asked: BTreeMap<u32, u64>,
    refused: u64,
    with_load: BTreeMap<u32, u64>,
    refused_with_load: u64,
    /// 50 for an index that is not the entry's, and 51 for a chain past 64.
    circles_behind: u64,
    past_all: u64,
    /// By what no load left, the numbers.
    other: BTreeMap<u32, u64>,
}

impl Counts {
    fn count(&mut self, entry: u64, told: &Result<u64, Stop>) {
        match told {
            Ok(chain) => *self.chains.entry(*chain.min(&LONG)).or_insert(0) += 1,
            Err(stop) => {
                self.circles_behind += (stop.number == 50 && stop.value != entry) as u64;
                self.past_all += (stop.number == 51 && stop.value > 64) as u64;
            }
        }
        *self.asked.entry(number(told)).or_insert(0) += 1;
    }

    pub fn print(&self) {
        println!("how deep profiles call, chains told: {:?}", self.chains);
        println!(
            "the numbers: {:?}, with the load {:?}; the load's refusal {} and {} times; 50 of an index that is not the entry's {} times, 51 of a chain past 64 {} times",
            self.asked,
            self.with_load,
            self.refused,
            self.refused_with_load,
            self.circles_behind,
            self.past_all
        );
        println!("by what no load left, the numbers: {:?}", self.other);
        let own = [0, 41, 50, 51].map(|n| [self.asked.get(&n), self.with_load.get(&n)]);
        let others = [0, 33, 41, 50, 51].map(|n| self.other.get(&n));
        let came = own.concat().into_iter().chain(others).all(|n| n.is_some())
            && ![
                self.refused,
                self.refused_with_load,
                self.circles_behind,
                self.past_all,
            ]
            .contains(&0)
            && (1..6).all(|n| self.chains.contains_key(&n));
        if came {
            println!("every kind of answer about depth came");
        } else {
            println!("not every kind of answer about depth came");
        }
    }
}

fn number(told: &Result<u64, Stop>) -> u32 {
    told.map_or_else(|stop| stop.number, |_| 0)
}

/// The words of an answer to the question alone.
fn words(told: &Result<u64, Stop>) -> [u64; WORDS] {
    match told {
        Ok(chain) => {
            let mut words = [0; WORDS];
            words[4] = *chain;
            words
        }
        Err(stop) => stop.words(),
    }
}

/// A limit: any, about the chain, or outside.
fn limit(r: &mut Random, chain: u64) -> u32 {
    match r.below(6) {
        0 => r.pick(&[0, 65, 66, 1 << 31, u32::MAX]),
        1 => r.range(1, 64) as u32,
        2 => 64,
        3 => chain.saturating_sub(1) as u32,
        4 => chain as u32,
        _ => r.range(1, 6) as u32,
    }
}

/// Asks once, in so many numbers, and gives what is told.
fn ask(
    image: &[u8],
    t: &Columns,
    loaded: &[u64],
    work: usize,
    limit: u32,
    room: usize,
) -> Result<Result<u64, Stop>, String> {
    let told = depth::asked(image, t, loaded, work, limit);
    let mut lent = Guarded::new(work, 0xa5a5_a5a5);
    let got = port::call_depth(image, t, loaded, lent.lend(), limit, room);
    let left = lent.held().to_vec();
    same("", &got, words(&told), room)
        // what stands in it is left free
        .and_then(|()| lent.check("the numbers lent", &left))
        .map_err(|text| {
            format!("how deep it calls, in {work} numbers, limit {limit}, by {loaded:?}{text}")
        })?;
    Ok(told)
}

/// The load once more, with the question: all that it leaves is the load's.
fn with_load(
    case: &Case,
    e: &Expected,
    file: &[u8],
    work: usize,
    limit: u32,
) -> Result<Result<u64, Stop>, String> {
    let told = depth::asked(&e.image, &e.table, &e.words, work, limit);
    let mut words = e.words;
    if e.words[0] == 0 {
        match told {
            Ok(chain) => words[LOAD_WORDS] = chain,
            Err(stop) => words[..2].copy_from_slice(&[stop.number as u64, stop.value]),
        }
    }
    let mut lent = Lent::new(case);
    let mut numbers = Guarded::new(work, case.garbage as u32 | 1);
    let result = port::load_call_depth(
        file,
        &case.builtins,
        case.settings.bits() as u32,
        lent.image.lend(),
        lent.ro.lend(),
        lent.table.each_mut().map(|c| c.lend()),
        numbers.lend(),
        limit,
        lent.answer.lend(),
    );
    let left = numbers.held().to_vec();
    lent.check(case, e, result, words)
        .and_then(|()| numbers.check("the numbers lent", &left))
        .map_err(|text| {
            format!("the load with how deep it calls, in {work} numbers, limit {limit}: {text}")
        })?;
    Ok(told)
}

/// What no load of this file has left, made from what one has: words, a column, or a slot.
fn others(r: &mut Random, e: &Expected) -> (Vec<u8>, Columns, Vec<u64>) {
    let (mut image, mut t, mut words) = (e.image.clone(), e.table.clone(), e.words);
    let used = words[6];
    match r.below(12) {
        // too few
        0 => return (image, t, words[..r.index(LOAD_WORDS)].to_vec()),
        1 => words[4] = r.pick(&[0, 1, 2, 3, 2 + (1 << 32), u64::MAX]),
        2 => {
            let any = r.below(9);
            words[5] = r.pick(&[words[5] + (1 << 32), words[5] + 1, any, u64::MAX]);
        }
        3 => {
            words[6] = r.pick(&[
                used + 1,
                used + 2,
                used.wrapping_sub(1),
                0,
                1 << 30,
                u64::MAX,
            ])
        }
        4 => {
            words[14] = r.pick(&[0, 7, 8, 15, 16, words[14] + 8, (1 << 24) + 8]);
        }
        5 => words[13] = r.pick(&[0, 8, u64::MAX, 1 << 63, image.len() as u64 + 1]),
        6 => {
            words[14] = r.below(80);
            words[13] = (image.len() as u64 + r.below(2)).wrapping_sub(words[14]);
        }
        // a refusal, by the lower half of the first word
        7 => {
            words[0] = r.pick(&[1, 50, 51, 1 << 32, (7 << 32) + 33, u64::MAX]);
            words[1..4].fill_with(|| r.next() >> r.below(64));
        }
        // columns of other lengths, and rows that do not ascend
        8 => {
            let column = &mut t[r.index(5)];
            let n = r.index(column.len() + 3);
            column.resize(n, 1);
        }
        9 if used > 0 => {
            let (column, at) = (r.index(2), r.index(used as usize));
            t[column][at] = match r.below(3) {
                0 => r.below(12) as u32,
                1 => t[column][r.index(used as usize)],
                _ => r.next() as u32,
            };
        }
        // any slots, with keys of rows in them
        _ => {
            let (start, slots) = (words[13] as usize, words[14] as usize / 8);
            for _ in 0..r.below(6) {
                if used == 0 || slots == 0 {
                    break;
                }
                let at = start + 8 * r.index(slots);
                let key = t[0][r.index(used as usize)];
                image[at] = r.pick(&[0x85, 0x85, 0x85, 0x95]);
                image[at + 1] = r.pick(&[0x10, 0x10, 0, 0xf0]);
                image[at + 4..at + 8].copy_from_slice(&key.to_le_bytes());
            }
        }
    }
    (image, t, words.to_vec())
}

/// All questions about a load that must leave `e`. `file` is the file as the port sees it.
pub fn compare(case: &Case, e: &Expected, file: &[u8], counts: &mut Counts) -> Result<(), String> {
    let r = &mut Random::new(case.garbage, 2);
    let rows = case.rows();
    let chain = match depth::asked(&e.image, &e.table, &e.words, rows, 64) {
        Ok(chain) => chain,
        Err(stop) => stop.value,
    };
    let entry = e.words[5];
    let refused = e.words[0] != 0;
    let mut works = vec![rows + r.pick(&[0, 0, 3]); 2];
    if rows > 0 && r.one_in(4) {
        works.push(r.pick(&[rows - 1, 0]));
    }
    for work in works {
        let told = ask(
            &e.image,
            &e.table,
            &e.words,
            work,
            limit(r, chain),
            case.room,
        )?;
        if refused {
            counts.refused += 1;
        } else {
            counts.count(entry, &told);
        }
    }
    if r.one_in(WITH_LOAD) {
        let work = match r.below(8) {
            0 => r.index(rows + 1),
            _ => rows,
        };
        let told = with_load(case, e, file, work, limit(r, chain))?;
        if refused {
            counts.refused_with_load += 1;
        } else {
            *counts.with_load.entry(number(&told)).or_insert(0) += 1;
        }
    }
    if !refused && r.one_in(OTHERS) {
        let (image, t, words) = others(r, e);
        let rows = t.iter().map(Vec::len).min().unwrap();
        let work = rows.saturating_sub(r.one_in(10) as usize);
        let told = ask(&image, &t, &words, work, limit(r, chain), case.room)?;
        *counts.other.entry(number(&told)).or_insert(0) += 1;
    }
    Ok(())
}
