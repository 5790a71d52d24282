//! Loads a file with all settings on and no built-ins, and prints `refused` with the refusal in
//! words; or, as the program loadlist does, `accepted` with version, entry, keys and moves, and a
//! line for each row, by rising key: key, index, name kind.

use sbpf::{load, Lent, Settings};
use std::{env, fs::File, io::Read, process::exit};

const ROWS: usize = 4096;

/// One byte more than a file may have, so that a longer one is refused by its number.
const TAKEN: u64 = (1 << 24) + 1;

fn main() {
    let Some(name) = env::args_os().nth(1) else {
        eprintln!("usage: load FILE");
        exit(2);
    };
    let mut file = Vec::new();
    if let Err(err) = File::open(name).and_then(|f| f.take(TAKEN).read_to_end(&mut file)) {
        eprintln!("{err}");
        exit(2);
    }

    let (mut image, mut ro) = (vec![0; file.len()], vec![0; file.len()]);
    let mut columns = [[0; ROWS]; 5];
    let [keys, indices, kinds, starts, lengths] = &mut columns;
    let mut lent = Lent {
        image: &mut image,
        ro: &mut ro,
        keys,
        indices,
        kinds,
        starts,
        lengths,
    };
    match load(&file, &[], Settings::ALL_ON, &mut lent) {
        Err(refusal) => {
            println!("refused {refusal}");
            exit(1);
        }
        Ok(a) => {
            println!("accepted {} {} {} {}", a.version, a.entry, a.used, a.moves);
            for k in 0..a.used {
                println!("{} {} {}", lent.keys[k], lent.indices[k], lent.kinds[k]);
            }
        }
    }
}
