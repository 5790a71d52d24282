//! vectors worked FOLDER: writes the scope's worked examples for the program `crates/worked`.
//! vectors FOLDER LIST: writes the loads of a list for a program that replays them without any
//! Rust (`crates/load_vectors`). The file `stdin` has the cases, `stdout` a line for each, what the
//! Rust answers (and the scope where the Rust says nothing).
//!
//! A case, all numbers 32 bits little-endian:
//!
//!     length of the file
//!     settings, as `sbpf_load` takes them
//!     number of built-ins
//!     length of the image buffer
//!     length of the read-only buffer
//!     lengths of the columns: keys, indices, kinds, starts, lengths
//!     the built-ins
//!     the bytes of the file
//!
//! The columns and buffers are to be filled with anything but zeros before the load. A line:
//!
//!     refused NUMBER VALUE START LENGTH IMAGE RO ROWS
//!     accepted VERSION ENTRY KEYS MOVES COPIED OFFSET START LENGTH ADDR AT SIZE TEXT IMAGE RO ROWS
//!
//! COPIED to LENGTH tell of the read-only bytes, ADDR, AT and SIZE of the text (its address and its
//! place in the file), TEXT is 0 or 44, what the text part answers. IMAGE, RO and ROWS are hashes
//! (the loader's own: MurmurHash3 x86 32-bit, seed 0; 8 hexadecimal digits) of the whole lent
//! image, the whole lent read-only buffer, and the five whole columns one after the other, keys,
//! indices, kinds, starts, lengths, four bytes little-endian for each number. After a refusal
//! everything lent is zero.
//!
//! A list has a line for each case or run of cases: how it is drawn (`small` or `large`, by its file;
//! `faulty`, small and damaged up to three times; `end`, small with relocations at its end; these three
//! with `_addends` behind the name for files with relocations that bring an addend; `any`, as the
//! comparison draws its even cases), seed, number and, if not 1, how many from that number on. FOLDER/list
//! has the cases written, one to a line. `tools/wrong_programs` chooses the sample.
//!
//! The replaying program has nothing but its stack, so what it lends are arrays of fixed lengths,
//! the limits below; a case that passes one of them is left out. So is 40: its file would have
//! 16,777,217 bytes, twice a usual stack. `differential` has 40 among its cases.

use differential::{
    cases::Case,
    elf::Addends,
    expected::{expected, Expected},
    outcome::{hash, Text},
    worked,
};
use std::{collections::BTreeMap, env, fs, path::Path};

// What the replaying program can lend: LENT, ROWS and BUILTINS of its source.
const MOST_LENT: usize = 16_384;
const MOST_ROWS: usize = 256;
const MOST_BUILTINS: usize = 64;

fn line(e: &Expected) -> String {
    let w = &e.words;
    let rows: Vec<u8> = e
        .table
        .iter()
        .flatten()
        .flat_map(|x| x.to_le_bytes())
        .collect();
    let answer = if w[0] != 0 {
        format!("refused {} {} {} {}", w[0], w[1], w[2], w[3])
    } else {
        let words: Vec<String> = w[4..15].iter().map(u64::to_string).collect();
        format!("accepted {} {}", words.join(" "), text_number(e))
    };
    format!(
        "{answer} {:08x} {:08x} {:08x}",
        hash(&e.image),
        hash(&e.ro),
        hash(&rows)
    )
}

/// What the text part answers: 44 where the Rust aborts.
fn text_number(e: &Expected) -> u64 {
    match e.text {
        Some(Text::Aborted) => 44,
        _ => 0,
    }
}

/// The number of a refusal; 44 for an accepted file whose text part is refused.
fn number_of(e: &Expected) -> u64 {
    e.words[0].max(text_number(e))
}

fn bytes(case: &Case) -> Vec<u8> {
    let mut out = Vec::new();
    let head = [
        case.file.len(),
        case.settings.bits() as usize,
        case.builtins.len(),
        case.image,
        case.ro,
    ];
    for n in head.iter().chain(&case.columns) {
        out.extend_from_slice(&(*n as u32).to_le_bytes());
    }
    for key in &case.builtins {
        out.extend_from_slice(&key.to_le_bytes());
    }
    out.extend_from_slice(&case.file);
    out
}

/// The replaying program can lend all that the case asks for.
fn can_lend(case: &Case) -> bool {
    case.file.len().max(case.image).max(case.ro) <= MOST_LENT
        && case.columns.iter().all(|n| *n <= MOST_ROWS)
        && case.builtins.len() <= MOST_BUILTINS
}

/// A case as a list names it: how it is drawn, its seed and its number.
fn case_of(style: &str, seed: u64, number: u64) -> Case {
    let addends = match style.ends_with("_addends") {
        true => Addends::Drawn,
        false => Addends::No,
    };
    match style {
        "small" | "small_addends" => Case::small(seed, number, addends),
        "large" => Case::large(seed, number),
        "faulty" | "faulty_addends" => Case::faulty(seed, number, addends),
        "end" | "end_addends" => Case::end(seed, number, addends),
        "open_names" => Case::open_names(seed, number),
        "any" => Case::new(seed, number),
        _ => panic!("{style}: no way to draw a case"),
    }
}

/// The cases of a list's line.
fn cases_of(line: &str) -> Vec<(&str, u64, u64)> {
    let words: Vec<&str> = line.split_whitespace().collect();
    let number = |k: usize| words[k].parse::<u64>().expect("a number");
    let count = if words.len() > 3 { number(3) } else { 1 };
    (number(2)..number(2) + count)
        .map(|k| (words[0], number(1), k))
        .collect()
}

fn write(folder: &str, list: &str) {
    let (mut binary, mut text, mut written) = (Vec::new(), String::new(), String::new());
    let mut numbers: BTreeMap<(u64, bool), u64> = BTreeMap::new();
    for (style, seed, number) in list.lines().flat_map(cases_of) {
        let case = case_of(style, seed, number);
        if !can_lend(&case) {
            continue;
        }
        let e = expected(&case).expect("the model agrees with the Rust");
        binary.extend(bytes(&case));
        text += &format!("{}\n", line(&e));
        written += &format!("{style} {seed} {number}\n");
        *numbers.entry((number_of(&e), case.version2)).or_insert(0) += 1;
    }
    for (name, bytes) in [
        ("stdin", &binary[..]),
        ("stdout", text.as_bytes()),
        ("list", written.as_bytes()),
    ] {
        fs::write(Path::new(folder).join(name), bytes).expect("a folder");
    }
    println!(
        "{} cases, {} bytes, {} bytes of answers",
        text.lines().count(),
        binary.len(),
        text.len()
    );
    for ((n, version2), count) in numbers {
        println!("{n:>3} version {} {count:>6}", 1 + version2 as u32);
    }
}

fn main() {
    let args: Vec<String> = env::args().skip(1).collect();
    match &args[..] {
        [what, folder] if what == "worked" => worked::write(folder),
        [folder, list] => write(folder, &fs::read_to_string(list).expect("a list")),
        _ => {
            eprintln!("vectors FOLDER LIST | vectors worked FOLDER");
            std::process::exit(2);
        }
    }
}
