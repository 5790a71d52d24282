//! differential CASES [SEED [FIRST]]: compares the proved functions with the Rust: the readers
//!     and, where the library has it, the load.
//! differential readers CASES [SEED [FIRST]], differential loads ..: one of them alone.
//! differential rust CASES [SEED [FIRST]]: what is expected of a load, without the port: the true
//!     Rust's answers, and the second implementation of the scope held against them.
//! differential twins CASES [SEED [FIRST]]: loads of a file with relocations, and of the same file with
//!     them as the kind that brings an addend.
//! differential worked: the scope's worked examples and published hashes, against what was worked
//!     out by hand.
//! differential write CASE FILE [SEED]: the file of a case.
//! differential FILE..: both answers to files, with all settings on and no built-ins.

use differential::{
    cases::Case,
    compare::{shrink, Comparer},
    expected, loads, number_name, outcome, port,
    random::Random,
    twins, worked,
};
use std::{collections::BTreeMap, env, fs, process::exit, time::Instant};

const MOST_DIFFERENCES: usize = 5;

/// What answers that there is something, or that there is nothing.
const FINDS: [&str; 5] = [
    "lookup",
    "lookup_ascending",
    "index_ascending",
    "row_ascending",
    "symbol by name",
];

/// What is asked.
#[derive(Clone, Copy)]
struct Ask {
    readers: bool,
    /// The answers that a load must give.
    expect: bool,
    /// And those of the port.
    loads: bool,
}

/// Stops where the library cannot be asked.
fn need(there: bool) {
    if !there {
        eprintln!("the library that this was built with cannot be asked for that (see build.rs)");
        exit(2);
    }
}

fn compare(ask: Ask, cases: u64, seed: u64, first: u64) {
    need((!ask.readers || port::HAS_PORT) && (!ask.loads || port::HAS_LOAD));
    let began = Instant::now();
    let mut both = Comparer::new();
    let mut counts = loads::Counts::default();
    let mut differences = 0;
    let mut made = 0;
    for number in first..first + cases {
        let case = Case::compared(seed, number);
        made += 1;
        if ask.readers {
            let mut r = Random::new(!seed, number);
            let result = both
                .reader(&case)
                .and_then(|()| both.hashes(&mut r))
                .and_then(|()| both.lookup(&mut r, case.room))
                .and_then(|()| match port::HAS_TEXT_PLACE {
                    true => both.text_place(&mut r, case.room),
                    false => Ok(()),
                });
            if let Err(text) = result {
                differences += 1;
                println!("DIFFERENCE in case {number} of seed {seed}: {text}");
                let again = |c: &Case| Comparer::new().reader(c);
                tell(
                    &case,
                    shrink(&case),
                    &again,
                    &format!("difference-{seed}-{number}"),
                );
            }
        }
        let load = |c: &Case, counts: &mut loads::Counts| {
            if ask.loads {
                loads::compare(c, counts)
            } else {
                loads::expect(c, counts).map(|_| ())
            }
        };
        if ask.expect {
            if let Err(text) = load(&case, &mut counts) {
                differences += 1;
                println!("DIFFERENCE in the load of case {number} of seed {seed}: {text}");
                let again = |c: &Case| load(c, &mut loads::Counts::default());
                let small = loads::shrink(&case, &|c| again(c).is_err());
                tell(
                    &case,
                    small,
                    &again,
                    &format!("difference-load-{seed}-{number}"),
                );
            }
        }
        if differences >= MOST_DIFFERENCES {
            println!("stopped after {differences} differences");
            break;
        }
        if made % 1_000_000 == 0 {
            eprintln!("{made} cases, {:.0} s", began.elapsed().as_secs_f64());
        }
    }
    println!(
        "seed {seed}, cases {first} to {}, {:.0} s",
        first + made - 1,
        began.elapsed().as_secs_f64()
    );
    let mut last = "";
    for ((what, number), count) in &both.histogram {
        if *what != last {
            println!("{what}");
            last = what;
        }
        let name = match (*what, number) {
            (what, 0) if FINDS.contains(&what) => "none",
            (what, 1) if FINDS.contains(&what) => "found",
            (_, 0) => "",
            _ => number_name(*number),
        };
        println!("  {number:>3} {count:>12}  {name}");
    }
    if ask.expect {
        println!(
            "{}",
            if ask.loads {
                "loads, compared"
            } else {
                "loads, the Rust alone"
            }
        );
        counts.print();
        if ask.loads && port::HAS_WRITERS {
            counts.wrote.print();
        }
        if ask.loads && port::HAS_CALL_DEPTH {
            counts.measured.print();
        }
    }
    println!("{differences} differences");
    if differences > 0 {
        exit(1);
    }
}

fn compare_twins(cases: u64, seed: u64, first: u64) {
    need(port::HAS_LOAD);
    let mut answers = BTreeMap::new();
    let mut differences = 0;
    for number in first..first + cases {
        match twins::compare(seed, number) {
            Ok(Some(answer)) => *answers.entry(answer).or_insert(0) += 1,
            Ok(None) => {}
            Err(text) => {
                differences += 1;
                println!("DIFFERENCE in case {number} of seed {seed}: {text}");
            }
        }
        if differences >= MOST_DIFFERENCES {
            break;
        }
    }
    println!("pairs by the number that both loads answer: {answers:?}");
    println!("{differences} differences");
    if differences > 0 {
        exit(1);
    }
}

/// Writes the file of a case that differs, and the smallest that was found from it.
fn tell(case: &Case, small: Case, again: &dyn Fn(&Case) -> Result<(), String>, name: &str) {
    fs::write(format!("{name}.elf"), &case.file).expect("the folder can be written");
    about(case);
    if let Err(text) = again(&small) {
        println!("  smallest found, {} bytes: {text}", small.file.len());
        about(&small);
        fs::write(format!("{name}-small.elf"), &small.file).expect("the folder can be written");
    }
    println!("  written to {name}*.elf");
}

fn about(case: &Case) {
    println!(
        "  settings {} built-ins {:x?} columns {:?} image {} read-only {} answer {} shift {} asked {:?}",
        case.settings.bits(),
        case.builtins,
        case.columns,
        case.image,
        case.ro,
        case.room,
        case.shift,
        case.asked
    );
}

fn one(name: &str) {
    let case = Case::of_file(fs::read(name).expect("a file that can be read"));
    if port::HAS_PORT {
        let mut both = Comparer::new();
        match both.reader(&case) {
            Ok(()) => println!(
                "{name}: same, parse {:?}",
                both.histogram
                    .keys()
                    .find(|(what, _)| *what == "parse")
                    .unwrap()
                    .1
            ),
            Err(text) => println!("{name}: DIFFERENCE {text}"),
        }
    }
    if port::HAS_LOAD {
        match loads::compare(&case, &mut loads::Counts::default()) {
            Ok(()) => println!("{name}: same load"),
            Err(text) => println!("{name}: DIFFERENCE in the load: {text}"),
        }
    }
    match expected::expected(&case) {
        Ok(e) => println!(
            "{name}: a load answers {:?}, keys {:x?} of {:?}",
            e.words,
            &e.table[0][..e.words[6] as usize],
            &e.table[1][..e.words[6] as usize]
        ),
        Err(text) => println!("{name}: {text}"),
    }
    println!(
        "{name}: the Rust's load {:?}",
        outcome(&case.file, case.settings, &case.builtins, usize::MAX)
    );
}

fn main() {
    let args: Vec<String> = env::args().skip(1).collect();
    let number = |k: usize, default: u64| {
        args.get(k)
            .map_or(default, |a| a.replace('_', "").parse().expect("a number"))
    };
    let run = |readers, expect, loads| {
        let ask = Ask {
            readers,
            expect,
            loads,
        };
        compare(ask, number(1, 10_000), number(2, 1), number(3, 0))
    };
    match args.first().map(String::as_str) {
        Some("readers") => run(true, false, false),
        Some("loads") => run(false, true, true),
        Some("rust") => run(false, true, false),
        Some("twins") => compare_twins(number(1, 10_000), number(2, 1), number(3, 0)),
        Some("worked") => {
            need(port::HAS_LOAD);
            exit((worked::run() > 0) as i32)
        }
        Some("write") => fs::write(&args[2], Case::compared(number(3, 1), number(1, 0)).file)
            .expect("a file that can be written"),
        Some(a) if a.starts_with(|c: char| c.is_ascii_digit()) => {
            if !port::HAS_LOAD {
                println!("the library has no load: the readers alone are compared");
            }
            let ask = Ask {
                readers: true,
                expect: port::HAS_LOAD,
                loads: port::HAS_LOAD,
            };
            compare(ask, number(0, 0), number(1, 1), number(2, 0))
        }
        Some(_) => args.iter().for_each(|name| one(name)),
        None => {
            eprintln!(
                "differential [readers | loads | rust | twins] CASES [SEED [FIRST]] | worked | write CASE FILE [SEED] | FILE.."
            );
            exit(2);
        }
    }
}
