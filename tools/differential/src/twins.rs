//! Twins: a file with relocations, and the same file with them as the kind that brings an addend, their
//! addends the bytes that the others read. Both load to the same. Neither answer is compared with the
//! Rust's here, nor with the model's: the model only tells which bytes are read.

use crate::{
    cases::Case,
    compare::Placed,
    dynamic::{self, get},
    elf::put,
    model,
    port::{self, WORDS},
    random::Random,
};

/// What a load answers and leaves.
#[derive(Debug, PartialEq, Eq)]
struct Left {
    words: Vec<u64>,
    image: Vec<u8>,
    ro: Vec<u8>,
    table: [Vec<u32>; 5],
}

fn load(case: &Case, file: &[u8]) -> Left {
    let mut left = Left {
        words: vec![1; WORDS],
        image: vec![1; case.image],
        ro: vec![1; case.ro],
        table: case.columns.map(|n| vec![1; n]),
    };
    port::load(
        file,
        &case.builtins,
        case.settings.bits() as u32,
        &mut left.image,
        &mut left.ro,
        left.table.each_mut().map(|c| &mut c[..]),
        &mut left.words,
    );
    left
}

/// The section of type SHT_RELA: its address, offset and size.
fn rela_section(file: &[u8]) -> Option<(u64, u64, u64)> {
    let (table, count) = (get(file, 40, 8), get(file, 60, 2));
    let header = (0..count)
        .map(|k| table + 64 * k)
        .find(|at| get(file, *at + 4, 4) == 4)?;
    Some((
        get(file, header + 16, 8),
        get(file, header + 24, 8),
        get(file, header + 32, 8),
    ))
}

/// The numbers in the dynamic table that lead to the relocations: of tags 17, 18 and 19, each once.
fn entries(file: &[u8]) -> Option<[u64; 3]> {
    let (at, count) = dynamic::table(file).ok()?;
    let tags: Vec<u64> = (0..count).map(|k| get(file, at + 16 * k, 8)).collect();
    let one = |tag: u64| {
        let all: Vec<usize> = (0..tags.len()).filter(|k| tags[*k] == tag).collect();
        (all.len() == 1).then_some(at + 16 * *all.first()? as u64)
    };
    Some([one(17)?, one(18)?, one(19)?])
}

/// The addends of a file's relocations, as the model reads them; none where the load does not come through
/// them all, where one is negative as an addend, or where one reads what is not the same in its twin.
fn addends(case: &Case, file: &[u8]) -> Option<Vec<u64>> {
    let r = &mut Random::new(case.garbage, 0);
    let mut placed = Placed::new();
    placed.put(file, 0);
    let replay = model::replay(placed.bytes(), case.settings, &case.builtins, usize::MAX);
    let (at, count) = dynamic::table(file).ok()?;
    let (start, end) = (at.saturating_sub(16), at + 16 * count);
    let mut all = Vec::new();
    for taken in replay.1.ok()?.addends {
        all.push(match taken {
            // any addend will do where none is taken
            None => r.next(),
            Some((value, _)) if value >> 63 != 0 => return None,
            Some((_, at)) if start <= at && at < end => return None,
            Some((value, _)) => value,
        });
    }
    Some(all)
}

/// Both files of a case whose file was made with room for the twin's table.
fn twins(case: &Case) -> Option<(Vec<u8>, Vec<u8>)> {
    let mut older = case.file.clone();
    let mut placed = Placed::new();
    placed.put(&older, 0);
    if dynamic::parse_number(placed.bytes()) != 0 || dynamic::has_relas(placed.bytes()) {
        return None;
    }
    let linked = dynamic::linked(&older).ok()?;
    let (from, count) = linked.relocations;
    let (address, to, size) = rela_section(&older)?;
    let entries = entries(&older)?;
    if count == 0 || size != 24 * count {
        return None;
    }
    // the table of the newer kind stands in both files
    for k in 0..count {
        for field in [0, 8] {
            let value = get(&older, from + 16 * k + field, 8);
            put(&mut older, to + 24 * k + field, value, 8);
        }
    }
    let all = addends(case, &older)?;
    for (k, addend) in all.iter().enumerate() {
        put(&mut older, to + 24 * k as u64 + 16, *addend, 8);
    }
    // which itself may be what a relocation reads, or where it writes
    if addends(case, &older)? != all {
        return None;
    }
    let mut newer = older.clone();
    for (entry, (tag, value)) in entries.iter().zip([(7, address), (8, size), (9, 24)]) {
        put(&mut newer, *entry, tag, 8);
        put(&mut newer, entry + 8, value, 8);
    }
    let found = dynamic::linked(&newer).ok()?;
    if found.relas != (to, count) {
        return None;
    }
    Some((older, newer))
}

/// The number that both loads of a pair answer, none where there is no pair, or how they differ.
pub fn compare(seed: u64, number: u64) -> Result<Option<u64>, String> {
    let case = Case::twin(seed, number);
    let Some((older, newer)) = twins(&case) else {
        return Ok(None);
    };
    let (a, mut b) = (load(&case, &older), load(&case, &newer));
    if a.words[0] == 0 {
        // three entries of the dynamic table are not the same, and stand in the image
        for entry in entries(&older).unwrap() {
            for at in entry as usize..entry as usize + 16 {
                if a.image[at] == older[at] && b.image[at] == newer[at] {
                    b.image[at] = a.image[at];
                }
            }
        }
    }
    if a != b {
        return Err(format!("twins\n  older: {a:x?}\n  newer: {b:x?}"));
    }
    Ok(Some(a.words[0]))
}
