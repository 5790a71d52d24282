//! A case: a file with everything that a load and the readers are asked with.

use crate::{
    compare::Placed,
    elf::{self, Addends, Beyond, Style},
    expected::LONGEST,
    model, mutate, outcome,
    port::WORDS,
    random::Random,
    Settings,
};

#[derive(Clone, Debug)]
pub struct Case {
    pub file: Vec<u8>,
    pub settings: Settings,
    /// Strictly ascending, but where 42 is meant.
    pub builtins: Vec<u32>,
    /// Lengths of the five lent columns.
    pub columns: [usize; 5],
    /// Lengths of the lent image and read-only buffer.
    pub image: usize,
    pub ro: usize,
    /// Words of the lent answer.
    pub room: usize,
    /// How far the bytes that the port sees stand from an aligned place.
    pub shift: usize,
    /// What the lent buffers hold before.
    pub garbage: u64,
    /// String offsets and section indices to ask for.
    pub asked: Vec<u32>,
    /// The file is as the generator made it.
    pub sound: bool,
    /// The version that the file was made for.
    pub version2: bool,
}

fn builtins(r: &mut Random) -> Vec<u32> {
    let mut keys = Vec::new();
    if r.one_in(2) {
        // every name that a file may ask for, so that many are accepted
        keys.extend(elf::SYMBOLS[2..].iter().map(|name| outcome::hash(name)));
        if !r.one_in(8) {
            keys.push(0);
        }
    }
    for _ in 0..r.below(6) {
        keys.push(match r.below(16) {
            0 => outcome::hash(&r.below(12).to_le_bytes()),
            1 => r.below(12) as u32,
            2 => r.next() as u32,
            3 => r.pick(&[0, 1, u32::MAX, u32::MAX - 1]),
            4 => outcome::hash(b"entrypoint"),
            _ => outcome::hash(r.pick(&elf::SYMBOLS[2..])),
        });
    }
    keys.sort_unstable();
    keys.dedup();
    keys
}

/// Built-ins that do not ascend: one repeated, or two that changed places.
fn disorder(r: &mut Random, keys: &mut Vec<u32>) {
    if keys.is_empty() {
        keys.push(r.next() as u32);
    }
    let at = r.index(keys.len());
    if keys.len() == 1 || r.one_in(2) {
        keys.insert(at, keys[at]);
    } else {
        let to = (at + 1) % keys.len();
        keys.swap(at, to);
    }
}

/// All on, or one of them off, or any.
fn settings(r: &mut Random, made: &elf::Made) -> Settings {
    let mut s = Settings::from_bits(match r.below(6) {
        0 => r.below(64),
        1 | 2 => 63 ^ 1 << r.below(6),
        _ => 63,
    });
    if !r.one_in(4) {
        // the file's version enabled
        s.v1 |= !made.version2;
        s.v2 |= made.version2;
        s.optimize |= made.version2;
    }
    if made.moved && !r.one_in(4) {
        s.reject_broken = false;
    }
    s
}

/// The lengths of the lent columns: plenty, just enough, one too few, none; equal or not.
fn columns(r: &mut Random, most: usize) -> [usize; 5] {
    let rows = match r.below(24) {
        0 => r.pick(&[0, 1]),
        1 | 2 => most.saturating_sub(1),
        3 => r.below(most as u64 + 1) as usize,
        4..=8 => most,
        9 => most + 1,
        10 => most + r.below(12) as usize,
        _ => 64.max(most + 8),
    };
    if !r.one_in(4) {
        return [rows; 5];
    }
    // the shortest decides, whichever it is
    let mut lengths = [0; 5].map(|_| rows + if r.one_in(3) { 0 } else { r.below(9) as usize });
    lengths[r.index(5)] = rows;
    lengths
}

impl Case {
    pub fn new(seed: u64, number: u64) -> Case {
        Case::of_any_size(seed, number, Beyond::NOTHING)
    }

    /// The cases of a comparison: every other one has relocations that bring an addend, and of four in a row
    /// the last two a hash table; of four such rows the last has open names, and of
    /// sixteen the last four have long chains of calls, so that of sixty-four cases the last sixteen have.
    pub fn compared(seed: u64, number: u64) -> Case {
        let beyond = Beyond {
            addends: match number % 2 {
                0 => Addends::No,
                _ => Addends::Drawn,
            },
            hash_table: number % 4 > 1,
            open_names: number / 4 % 4 == 3,
            chains: number / 16 % 4 == 3,
        };
        Case::of_any_size(seed, number, beyond)
    }

    fn of_any_size(seed: u64, number: u64, beyond: Beyond) -> Case {
        let r = &mut Random::new(seed, number);
        let style = if r.one_in(250) {
            Style::Large
        } else {
            Style::Usual
        };
        Case::drawn(r, style, beyond, mutate::damage)
    }

    /// A case whose file is small.
    pub fn small(seed: u64, number: u64, addends: Addends) -> Case {
        let r = &mut Random::new(seed, number);
        Case::drawn(r, Style::Small, Beyond::addends(addends), mutate::damage)
    }

    /// A case whose file is small, and whose tables of names end in one without its zero byte.
    pub fn open_names(seed: u64, number: u64) -> Case {
        let r = &mut Random::new(seed, number);
        let beyond = Beyond {
            open_names: true,
            ..Beyond::NOTHING
        };
        Case::drawn(r, Style::Small, beyond, mutate::damage)
    }

    /// A case whose file has more instructions than the constant table has keys.
    pub fn large(seed: u64, number: u64) -> Case {
        let r = &mut Random::new(seed, number);
        Case::drawn(r, Style::Large, Beyond::NOTHING, mutate::damage)
    }

    /// A case whose file is small and damaged up to three times: of two faults the order of the checks shows.
    pub fn faulty(seed: u64, number: u64, addends: Addends) -> Case {
        let thrice = |r: &mut Random, file: &mut Vec<u8>, beyond: Beyond| {
            (0..3).fold(false, |any, _| mutate::damage(r, file, beyond) | any)
        };
        let r = &mut Random::new(seed, number);
        Case::drawn(r, Style::Small, Beyond::addends(addends), thrice)
    }

    /// A case whose file is small and has a relocation at its end.
    pub fn end(seed: u64, number: u64, addends: Addends) -> Case {
        let r = &mut Random::new(seed, number);
        Case::drawn(
            r,
            Style::Small,
            Beyond::addends(addends),
            mutate::relocate_end,
        )
    }

    /// A case whose file has room for its relocations as the kind that brings an addend.
    pub fn twin(seed: u64, number: u64) -> Case {
        let r = &mut Random::new(seed, number);
        Case::drawn(
            r,
            Style::Usual,
            Beyond::addends(Addends::Room),
            |_, _, _| false,
        )
    }

    fn drawn(
        r: &mut Random,
        style: Style,
        beyond: Beyond,
        damage: impl FnOnce(&mut Random, &mut Vec<u8>, Beyond) -> bool,
    ) -> Case {
        let made = elf::file(r, style, beyond);
        let settings = settings(r, &made);
        let mut file = made.bytes;
        let sound = !damage(r, &mut file, beyond);
        let mut builtins = builtins(r);

        // how many rows the load asks for
        let mut placed = Placed::new();
        placed.put(&file, 0);
        let (most, _) = model::replay(placed.bytes(), settings, &builtins, usize::MAX);
        let columns = columns(r, most);

        if r.one_in(150) {
            disorder(r, &mut builtins);
        }
        if style != Style::Small {
            // zeros behind a file change nothing, up to the longest
            if r.one_in(40_000) {
                file.resize(LONGEST + 1 + r.below(2) as usize, 0);
            } else if r.one_in(500_000) {
                file.resize(LONGEST, 0);
            }
        }
        let mut lent = || match r.below(12) {
            0..=6 => file.len(),
            _ => file.len() + r.below(40) as usize,
        };
        let (mut image, mut ro) = (lent(), lent());
        if file.len() > LONGEST {
            // 40 comes before 41
            (image, ro) = (r.below(100) as usize, r.below(100) as usize);
        } else if !file.is_empty() && r.one_in(100) {
            let short = match r.below(3) {
                0 => file.len() - 1,
                1 => 0,
                _ => r.index(file.len()),
            };
            match r.below(3) {
                0 => image = short,
                1 => ro = short,
                _ => (image, ro) = (short, short),
            }
        }
        Case {
            settings,
            builtins,
            columns,
            image,
            ro,
            room: if r.one_in(8) {
                r.index(WORDS + 8)
            } else {
                WORDS
            },
            shift: r.index(16),
            garbage: r.next(),
            asked: (0..3)
                .map(|_| match r.below(6) {
                    0 => r.next() as u32,
                    1 => u32::MAX - r.below(100) as u32,
                    _ => r.below(160) as u32,
                })
                .collect(),
            sound,
            version2: made.version2,
            file,
        }
    }

    /// A case with this file alone: all settings on, no built-ins, room for everything.
    pub fn of_file(file: Vec<u8>) -> Case {
        Case {
            settings: Settings::ALL_ON,
            builtins: Vec::new(),
            columns: [256.max(file.len() / 8 + 2); 5],
            image: file.len(),
            ro: file.len(),
            room: WORDS,
            shift: 0,
            garbage: 1,
            asked: vec![0, 1, 2],
            sound: true,
            version2: file.get(48..52) == Some(&[0x20, 0, 0, 0]),
            file,
        }
    }

    /// The rows of the lent table.
    pub fn rows(&self) -> usize {
        *self.columns.iter().min().unwrap()
    }
}
