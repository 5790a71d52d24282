//! A dynamic symbol by its name, through the hash table under tag 4: from the request's text, since the Rust
//! has no such question.

use crate::dynamic::{self, get, Table};
use std::collections::HashSet;

/// The gABI's hash of a name.
pub fn elf_hash(name: &[u8]) -> u32 {
    let mut h: u32 = 0;
    for byte in name {
        h = (h << 4).wrapping_add(*byte as u32);
        let g = h & 0xf000_0000;
        if g != 0 {
            h ^= g >> 24;
        }
        h &= !g;
    }
    h
}

/// The number of the symbol with a name, none, or why the table cannot be used, of a file that a parse
/// accepts. `name_of` reads the name at an offset.
pub fn find_symbol<'a>(
    file: &[u8],
    symbols: Table,
    name_of: impl Fn(u32) -> Option<&'a [u8]>,
    name: &[u8],
) -> Result<Option<u32>, &'static str> {
    let address = dynamic::hash_table(file);
    if address == 0 {
        return Err("bad hash table: absent");
    }
    let Ok(Some(at)) = dynamic::locate(file, address) else {
        return Err("bad hash table: nowhere");
    };
    let fits = |n: u64| {
        at.checked_add(n)
            .is_some_and(|end| end <= file.len() as u64)
    };
    if !fits(8) {
        return Err("bad hash table: outside");
    }
    let (buckets, chains) = (get(file, at, 4), get(file, at + 4, 4));
    if buckets == 0 {
        return Err("bad hash table: no buckets");
    }
    if chains != symbols.1 {
        return Err("bad hash table: another count");
    }
    if !fits(8 + 4 * (buckets + chains)) {
        return Err("bad hash table: outside");
    }
    let number = |k: u64| get(file, at + 8 + 4 * k, 4);
    let mut met = HashSet::new();
    let mut index = number(elf_hash(name) as u64 % buckets);
    while index != 0 {
        if index >= chains {
            return Err("bad hash table: an index past the count");
        }
        // a chain with more links than there are symbols comes to one of them again
        if !met.insert(index) {
            return Err("bad hash table: a circle");
        }
        let st_name = get(file, symbols.0 + 24 * index, 4) as u32;
        match name_of(st_name) {
            None => return Err("bad hash table: a name that cannot be read"),
            Some(carried) if carried == name => return Ok(Some(index as u32)),
            Some(_) => index = number(buckets + index),
        }
    }
    Ok(None)
}
