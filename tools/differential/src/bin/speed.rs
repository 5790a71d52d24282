//! speed [ROUNDS], speed lookups [ROUNDS], speed writers [ROUNDS], speed depth [ROUNDS]: the fourth measures how deep a
//! profile calls, beside the port's load of the same file, labels off. The third measures who wrote all bytes of a
//! file, and who wrote one, beside the port's load of the same file, labels off. The second compares lookups by key, a hit and a miss, with the
//! Rust's `lookup_by_key` on a registry of the same keys: by the scan, by the binary search, of the
//! index alone, and by the row's number, at which the caller reads the index in its own column, through the C interface, the first two with the nine words lent that a row has. The first: the Rust's `Executable::load` and the port's on the same files, in one process,
//! in turn. Time of the Rust: one load and its release (allocation is part of it, as it is where it
//! is used). Time of the port: one load into buffers that the load before has left (it clears them
//! itself), with eight rows more than there are functions. Copy: the file's bytes into a buffer.
//!
//! A round measures both, several loads each if they are short, and gives one ratio, port to Rust.
//! Printed are medians, and the ratio's quartiles.

use differential::{
    bench,
    cases::Case,
    expected::{expected, Expected},
    loads,
    outcome::{load_once, loader},
    port,
    random::Random,
    writers::{Write, Writer},
    Settings,
};
use rbpf::program::FunctionRegistry;
use std::{env, hint::black_box, time::Instant};

const KIB: usize = 1 << 10;
const MIB: usize = 1 << 20;

/// Microseconds for one of `n` calls.
fn time(n: u32, mut call: impl FnMut()) -> f64 {
    let began = Instant::now();
    for _ in 0..n {
        call();
    }
    began.elapsed().as_secs_f64() * 1e6 / n as f64
}

/// Lower quartile, median, upper quartile.
fn quartiles(mut x: Vec<f64>) -> [f64; 3] {
    x.sort_by(f64::total_cmp);
    [x[x.len() / 4], x[x.len() / 2], x[x.len() * 3 / 4]]
}

fn main() {
    let mut args = env::args().skip(1).peekable();
    let lookups = args.next_if(|a| a == "lookups").is_some();
    let writers = args.next_if(|a| a == "writers").is_some();
    let depth = args.next_if(|a| a == "depth").is_some();
    let rounds: usize = args
        .next()
        .map_or(41, |a| a.parse().expect("a number of rounds"));
    if writers {
        return writers_table(rounds);
    }
    if depth {
        return depth_table(rounds);
    }
    if lookups {
        println!("| Keys asked | Rows | Key | Rust ns | Scan/Rust | Search ns | Search/Rust (quartiles) | Index ns | Index/Rust (quartiles) | Number ns | Number/Rust (quartiles) |");
        println!("|---|---|---|---|---|---|---|---|---|---|---|");
        for asked in [FEW, MANY] {
            for rows in [10, 200, 1_000, 5_000, 100_000] {
                for hit in [true, false] {
                    lookup_row(asked, rows, hit, rounds);
                }
            }
        }
        return;
    }
    if !port::HAS_LOAD {
        println!("the library has no load: the Rust and the copy alone");
    }
    println!("| File | Functions | Version | Labels | Keys | Moves | Rust µs | Port µs | Port/Rust (quartiles) | Copy µs | Port/copy |");
    println!("|---|---|---|---|---|---|---|---|---|---|---|");
    for (size, functions) in SIZES {
        for version2 in [false, true] {
            for labels in [false, true] {
                row(size, functions, version2, labels, rounds);
            }
        }
    }
}

/// Bytes and functions of the files that are loaded.
const SIZES: [(usize, usize); 6] = [
    (KIB, 10),
    (64 * KIB, 200),
    (MIB, 1_000),
    (MIB, 5_000),
    (MIB, 0),
    (16 * MIB, 0),
];

fn size_name(size: usize) -> String {
    if size < MIB {
        format!("{} KiB", size / KIB)
    } else {
        format!("{} MiB", size / MIB)
    }
}

/// A case of a file that is measured: the answer first, since only equal work is compared.
fn measured(file: Vec<u8>, rows: usize, labels: bool) -> (Case, Expected) {
    let mut case = Case::of_file(file);
    case.settings = Settings {
        labels,
        ..Settings::ALL_ON
    };
    case.columns = [rows; 5];
    let e = expected(&case).expect("the model agrees with the Rust");
    assert_eq!(e.words[0], 0, "the file is refused");
    if port::HAS_LOAD {
        if let Err(text) = loads::compare(&case, &mut loads::Counts::default()) {
            println!("DIFFERENCE {text}");
            std::process::exit(1);
        }
    }
    (case, e)
}

fn row(size: usize, functions: usize, version2: bool, labels: bool, rounds: usize) {
    let (case, e) = measured(
        bench::file(size, functions, version2),
        functions + 8,
        labels,
    );
    let file = &case.file;

    let loader = loader(case.settings, &[]);
    let settings = case.settings.bits() as u32;
    let (mut image, mut ro) = (vec![0; size], vec![0; size]);
    let mut table = case.columns.map(|n| vec![0; n]);
    let mut answer = [0; port::WORDS];
    let mut copy = vec![0; size];
    let mut rust_once = || assert!(load_once(black_box(file), &loader));
    let mut port_once = || {
        if port::HAS_LOAD {
            let [a, b, c, d, e] = &mut table;
            let table = [&mut a[..], b, c, d, e];
            let n = port::load(
                black_box(file),
                &[],
                settings,
                &mut image,
                &mut ro,
                table,
                &mut answer,
            );
            assert_eq!(n, 0);
        }
    };
    let mut copy_once = || {
        copy.copy_from_slice(black_box(file));
        black_box(&copy);
    };
    // about 2 ms a measurement, so that the clock does not show
    let n = (2_000.0 / time(3, &mut rust_once)).clamp(1.0, 10_000.0) as u32;
    let (mut rust, mut port, mut copies, mut ratio) = (vec![], vec![], vec![], vec![]);
    for _ in 0..rounds {
        let (a, b) = (time(n, &mut rust_once), time(n, &mut port_once));
        rust.push(a);
        port.push(b);
        ratio.push(b / a);
        copies.push(time(n, &mut copy_once));
    }
    let (rust, port, copies) = (quartiles(rust)[1], quartiles(port)[1], quartiles(copies)[1]);
    let ratio = quartiles(ratio);
    let name = size_name(size);
    let ports = if port::HAS_LOAD {
        (
            format!("{port:.1}"),
            format!("{:.2} ({:.2} to {:.2})", ratio[1], ratio[0], ratio[2]),
            format!("{:.1}", port / copies),
        )
    } else {
        ("".into(), "".into(), "".into())
    };
    println!(
        "| {name} | {functions} | {} | {} | {} | {} | {rust:.1} | {} | {} | {copies:.2} | {} |",
        1 + version2 as u32,
        if labels { "on" } else { "off" },
        e.words[6],
        e.words[7],
        ports.0,
        ports.1,
        ports.2
    );
}

/// Files of examples/, by their names.
const LINKED: [(&str, &[u8]); 4] = [
    (
        "functions.so",
        include_bytes!("../../../../examples/functions.so"),
    ),
    (
        "addends.so",
        include_bytes!("../../../../examples/addends.so"),
    ),
    ("names.so", include_bytes!("../../../../examples/names.so")),
    (
        "pointers_version2.so",
        include_bytes!("../../../../examples/pointers_version2.so"),
    ),
];

/// Bytes and relocations of the files that are full of them.
const RELOCATED: [(usize, usize); 3] = [(4 * KIB, 50), (64 * KIB, 1_000), (MIB, 20_000)];

fn writers_table(rounds: usize) {
    if !port::HAS_WRITERS {
        println!("the library cannot be asked who wrote a byte");
        return;
    }
    println!("| File | Calls | Relocations | Version | Load µs | All µs | All/load (quartiles) | One µs | One/load (quartiles) |");
    println!("|---|---|---|---|---|---|---|---|---|");
    for (name, file) in LINKED {
        writers_row(name, file.to_vec(), 256, rounds);
    }
    for (size, functions) in SIZES {
        for version2 in [false, true] {
            let file = bench::file(size, functions, version2);
            let name = format!("{}, {functions} functions", size_name(size));
            writers_row(&name, file, functions + 8, rounds);
        }
    }
    for (size, relocations) in RELOCATED {
        for (version2, addends) in [(false, false), (true, false), (false, true), (true, true)] {
            let file = bench::relocated(size, relocations, version2, addends);
            let kind = if addends { "addends" } else { "no addends" };
            let name = format!("{}, {kind}", size_name(size));
            writers_row(&name, file, 8, rounds);
        }
    }
}

/// The calls and the relocations that a load has applied.
fn applied(e: &Expected) -> (usize, u32) {
    let calls = e.writes.iter().filter(|w| matches!(w.2, Writer::Call(_)));
    let number = |w: &Write| match w.2 {
        Writer::Relocation(j) => j + 1,
        _ => 0,
    };
    (
        calls.count(),
        e.writes.iter().map(number).max().unwrap_or(0),
    )
}

/// The port's load of a case, into buffers that the load before has left.
fn loading(case: &Case) -> impl FnMut() + '_ {
    let (file, settings) = (&case.file, case.settings.bits() as u32);
    let (mut image, mut ro) = (vec![0; file.len()], vec![0; file.len()]);
    let mut table = case.columns.map(|n| vec![0; n]);
    let mut loaded = [0; port::WORDS];
    move || {
        let table = table.each_mut().map(|c| &mut c[..]);
        let file = black_box(&file[..]);
        port::load(file, &[], settings, &mut image, &mut ro, table, &mut loaded);
        black_box(&image);
    }
}

/// Who wrote all bytes of a file, and who wrote the one in its middle, beside its load.
fn writers_row(name: &str, file: Vec<u8>, rows: usize, rounds: usize) {
    let (case, e) = measured(file, rows, false);
    let file = &case.file;
    let mut load_once = loading(&case);
    let load = time(3, &mut load_once);
    let n = (2_000.0 / load).clamp(1.0, 10_000.0) as u32;
    let mut numbers = vec![0; file.len()];
    let mut answer = [0; port::WORDS];
    let mut all_once = || {
        port::who_wrote_all_into(black_box(file), &e.words, &mut numbers, &mut answer);
        black_box(&numbers);
    };
    let mut answer = [0; port::WORDS];
    let mut one_once = || {
        let middle = black_box(file.len() as u64 / 2);
        port::who_wrote_into(black_box(file), &e.words, middle, &mut answer);
        black_box(&answer);
    };
    let (mut load, mut all, mut one) = (vec![], vec![], vec![]);
    for _ in 0..rounds {
        load.push(time(n, &mut load_once));
        all.push(time(n, &mut all_once));
        one.push(time(n, &mut one_once));
    }
    let ratio = |times: &[f64]| {
        let [low, middle, high] = quartiles(times.iter().zip(&load).map(|(a, b)| a / b).collect());
        format!("{middle:.2} ({low:.2} to {high:.2})")
    };
    let middle = |times: &[f64]| quartiles(times.to_vec())[1];
    let (calls, relocations) = applied(&e);
    println!(
        "| {name} | {calls} | {relocations} | {} | {:.1} | {:.1} | {} | {:.1} | {} |",
        e.words[4],
        middle(&load),
        middle(&all),
        ratio(&all),
        middle(&one),
        ratio(&one),
    );
}

/// How deep profiles call, for three sizes.
fn depth_table(rounds: usize) {
    println!("| File | Functions | Calls | Version | Load µs | Depth µs | Depth/load (quartiles) | Answer |");
    println!("|---|---|---|---|---|---|---|---|");
    for (size, functions) in [(64 * KIB, 200), (MIB, 1_000), (MIB, 5_000)] {
        let graphs = [
            ("20 levels", bench::levels(functions, 20)),
            ("64 levels", bench::levels(functions, 64)),
            ("a chain of all", bench::chain(functions, false)),
            (
                "a chain, at its end a circle",
                bench::chain(functions, true),
            ),
        ];
        for (name, graph) in graphs {
            for version2 in [false, true] {
                // in version 1 rows stand in the order of hashes
                let orders: &[(&str, bool)] = match version2 {
                    true => &[(", called first", true), (", callers first", false)],
                    false => &[("", false)],
                };
                for (order, called_first) in orders {
                    let file = bench::calling(size, &graph, *called_first, version2);
                    let calls = format!("{name}{order}");
                    depth_row(&size_name(size), &calls, file, functions + 8, rounds);
                }
            }
        }
    }
}

/// How deep the profile of one file calls, beside its load.
fn depth_row(name: &str, calls: &str, file: Vec<u8>, rows: usize, rounds: usize) {
    let (case, e) = measured(file, rows, false);
    let mut load_once = loading(&case);
    let mut work = vec![0; rows];
    let mut answer = [0; port::WORDS];
    let mut depth_once = || {
        let image = black_box(&e.image[..]);
        port::call_depth_into(image, &e.table, &e.words, &mut work, 64, &mut answer);
        black_box(&answer);
    };
    let n = |once: f64| (2_000.0 / once).clamp(1.0, 10_000.0) as u32;
    let (loads, asks) = (n(time(3, &mut load_once)), n(time(1, &mut depth_once)));
    let (mut load, mut depth) = (vec![], vec![]);
    for _ in 0..rounds {
        load.push(time(loads, &mut load_once));
        depth.push(time(asks, &mut depth_once));
    }
    let ratio = depth.iter().zip(&load).map(|(a, b)| a / b).collect();
    let [low, middle, high] = quartiles(ratio);
    println!(
        "| {name} | {} | {calls} | {} | {:.1} | {:.1} | {middle:.2} ({low:.2} to {high:.2}) | {} |",
        e.words[6],
        e.words[4],
        quartiles(load)[1],
        quartiles(depth)[1],
        match answer[0] {
            0 => answer[4].to_string(),
            number => format!("{number}, {}", answer[1]),
        },
    );
}

/// The keys of a round, the same in each: so few that branch prediction can learn their order in a
/// small table, as that of a program which calls the same functions again and again; and many more.
const FEW: usize = 4_096;
const MANY: usize = 65_536;

/// Keys drawn all over.
fn lookup_row(count: usize, rows: usize, hit: bool, rounds: usize) {
    let r = &mut Random::new(11, rows as u64);
    let mut keys: Vec<u32> = (0..rows).map(|_| r.next() as u32 | 1).collect();
    keys.sort_unstable();
    keys.dedup();
    while keys.len() < rows {
        keys.push(keys[keys.len() - 1] + 2);
    }
    let mut registry = FunctionRegistry::default();
    for (index, key) in keys.iter().enumerate() {
        registry
            .register_function(*key, *b"", index)
            .expect("keys are distinct");
    }
    let indices: Vec<u32> = (0..rows as u32).collect();
    let table = [
        keys.clone(),
        indices,
        vec![3; rows],
        vec![0; rows],
        vec![0; rows],
    ];
    // no key of the table is even
    let asked: Vec<u32> = (0..count)
        .map(|_| keys[r.index(rows)] - if hit { 0 } else { 1 })
        .collect();
    let used = rows as u64;
    // a scan of many rows is asked fewer times
    let few = &asked[..(4_000_000 / rows).clamp(8, count)];
    for (i, key) in asked.iter().enumerate() {
        let there = registry.lookup_by_key(*key).map(|(_, index)| index as u64);
        let row = |by_search| {
            let words = port::lookup(by_search, &table, used, *key, 9).1;
            (words[4] == 1).then_some(words[5])
        };
        assert_eq!(row(true), there);
        assert!(i >= few.len() || row(false) == there);
        assert_eq!(port::index(&table, used, *key).map(u64::from), there);
        let number = port::row(&table, used, *key);
        assert_eq!(number.map(|i| table[1][i] as u64), there);
    }

    let rust_once = |asked: &[u32]| {
        for key in asked {
            black_box(registry.lookup_by_key(black_box(*key)));
        }
    };
    let lookup_once = |by_search: bool, asked: &[u32]| {
        let mut words = [0; 9];
        for key in asked {
            port::lookup_into(by_search, &table, used, black_box(*key), &mut words);
            black_box(&words);
        }
    };
    let index_once = |asked: &[u32]| {
        for key in asked {
            black_box(port::index(&table, used, black_box(*key)));
        }
    };
    let number_once = |asked: &[u32]| {
        for key in asked {
            let number = port::row(&table, used, black_box(*key));
            black_box(number.map(|i| table[1][i]));
        }
    };
    /// Nanoseconds for each key.
    fn each(asked: &[u32], call: impl Fn(&[u32])) -> f64 {
        time(1, || call(asked)) * 1e3 / asked.len() as f64
    }
    let (mut rust, mut scan, mut search) = (vec![], vec![], vec![]);
    let (mut index, mut number) = (vec![], vec![]);
    for _ in 0..rounds {
        rust.push(each(&asked, rust_once));
        search.push(each(&asked, |asked| lookup_once(true, asked)));
        index.push(each(&asked, index_once));
        number.push(each(&asked, number_once));
        scan.push(each(few, |asked| lookup_once(false, asked)));
    }
    let ratio = |times: &[f64]| {
        let [low, middle, high] = quartiles(times.iter().zip(&rust).map(|(a, b)| a / b).collect());
        format!("{middle:.2} ({low:.2} to {high:.2})")
    };
    let middle = |times: &[f64]| quartiles(times.to_vec())[1];
    println!(
        "| {count} | {rows} | {} | {:.1} | {:.1} | {:.1} | {} | {:.1} | {} | {:.1} | {} |",
        if hit { "there" } else { "absent" },
        middle(&rust),
        middle(&scan) / middle(&rust),
        middle(&search),
        ratio(&search),
        middle(&index),
        ratio(&index),
        middle(&number),
        ratio(&number),
    );
}
