//! How deep a loaded profile calls: from the request's text, since the Rust has no such question. The image, the
//! columns and the words are those that a load leaves, or others. The port goes over the functions again and again
//! until nothing changes; here the calls are followed depth first, each function once, and functions that reach
//! each other are found on the way (Tarjan).

use crate::{
    compare::binary_search,
    expected::LONGEST,
    model::{only, Stop},
    port::Columns,
};
use std::collections::{BTreeMap, BTreeSet};

/// A limit from 1 to 64; any other is read as 64.
fn limit_of(limit: u32) -> u64 {
    if (1..=64).contains(&limit) {
        limit as u64
    } else {
        64
    }
}

/// Which functions each function calls.
type Calls = BTreeMap<u32, BTreeSet<u32>>;

/// What the words of a load's answer say: where the text stands in the image, and so on.
struct Loaded<'a> {
    version2: bool,
    entry: u32,
    text: &'a [u8],
    keys: &'a [u32],
    indices: &'a [u32],
}

impl<'a> Loaded<'a> {
    /// None where no load of these rows can have given them.
    fn of(image: &'a [u8], t: &'a Columns, loaded: &[u64]) -> Option<Loaded<'a>> {
        let word = |k: usize| loaded.get(k).copied().unwrap_or(0);
        let rows = t.iter().map(Vec::len).min().unwrap() as u64;
        let (used, start, length) = (word(6), word(13), word(14));
        let end = start.checked_add(length)?;
        let fits = used <= rows.min((1 << 30) - 1) && length <= LONGEST as u64;
        if !fits || end > image.len() as u64 {
            return None;
        }
        let loaded = Loaded {
            version2: word(4) == 2,
            entry: word(5) as u32,
            text: &image[start as usize..end as usize],
            keys: &t[0][..used as usize],
            indices: &t[1][..used as usize],
        };
        loaded.indices.contains(&loaded.entry).then_some(loaded)
    }

    /// The function that a slot calls.
    fn callee(&self, slot: &[u8]) -> Option<u32> {
        if slot[0] != 0x85 || (self.version2 && slot[1] >> 4 == 0) {
            return None;
        }
        let key = u32::from_le_bytes([slot[4], slot[5], slot[6], slot[7]]);
        let at = binary_search(self.keys, key);
        (self.keys.get(at) == Some(&key)).then(|| self.indices[at])
    }

    fn calls(&self) -> Calls {
        let starts: BTreeSet<u32> = self.indices.iter().copied().collect();
        let mut calls: Calls = starts.iter().map(|i| (*i, BTreeSet::new())).collect();
        for (s, slot) in self.text.chunks_exact(8).enumerate() {
            let owner = starts.range(..=s as u32).next_back();
            if let (Some(owner), Some(callee)) = (owner, self.callee(slot)) {
                calls.get_mut(owner).unwrap().insert(callee);
            }
        }
        calls
    }
}

/// What is known of the functions that were reached.
#[derive(Default)]
struct Found {
    /// In which order they were first met, and the earliest that each reaches of those on the stack.
    met: BTreeMap<u32, usize>,
    low: BTreeMap<u32, usize>,
    stack: Vec<u32>,
    /// The longest chain from each that does not come back, once all that it reaches is known.
    depth: BTreeMap<u32, u64>,
    /// The functions that reach themselves.
    again: BTreeSet<u32>,
}

impl Found {
    fn meet(&mut self, f: u32) {
        let number = self.met.len();
        self.met.insert(f, number);
        self.low.insert(f, number);
        self.stack.push(f);
    }

    /// All that `f` calls is known.
    fn leave(&mut self, f: u32, calls: &Calls) {
        let deepest = calls[&f].iter().filter_map(|g| self.depth.get(g)).max();
        let depth = 1 + deepest.copied().unwrap_or(0);
        if self.low[&f] < self.met[&f] {
            return;
        }
        let at = self.stack.iter().rposition(|g| *g == f).unwrap();
        let circle = self.stack.split_off(at);
        if circle.len() > 1 || calls[&f].contains(&f) {
            self.again.extend(&circle);
        }
        for g in circle {
            self.depth.insert(g, depth);
        }
    }

    /// Follows the calls from `entry`, depth first, with a stack of its own.
    fn follow(&mut self, entry: u32, calls: &Calls) {
        self.meet(entry);
        let mut path = vec![(entry, calls[&entry].iter())];
        while let Some((f, rest)) = path.last_mut() {
            let f = *f;
            match rest.next() {
                Some(g) if !self.met.contains_key(g) => {
                    self.meet(*g);
                    path.push((*g, calls[g].iter()));
                }
                // one that is left for good is in no circle with `f`
                Some(g) if !self.depth.contains_key(g) => {
                    let low = self.low[&f].min(self.met[g]);
                    self.low.insert(f, low);
                }
                Some(_) => {}
                None => {
                    self.leave(f, calls);
                    path.pop();
                    if let Some((caller, _)) = path.last() {
                        let low = self.low[caller].min(self.low[&f]);
                        self.low.insert(*caller, low);
                    }
                }
            }
        }
    }
}

/// The longest chain from the entry, counted in functions, or why none is told. `work` is how many numbers are lent.
pub fn asked(
    image: &[u8],
    t: &Columns,
    loaded: &[u64],
    work: usize,
    limit: u32,
) -> Result<u64, Stop> {
    Stop::told(loaded)?;
    if work < t.iter().map(Vec::len).min().unwrap() {
        return Err(only(41));
    }
    let Some(loaded) = Loaded::of(image, t, loaded) else {
        return Err(only(33));
    };
    let calls = loaded.calls();
    let mut found = Found::default();
    found.follow(loaded.entry, &calls);
    if let Some(index) = found.again.first() {
        return Err(Stop {
            value: *index as u64,
            ..only(50)
        });
    }
    let chain = found.depth[&loaded.entry];
    if chain > limit_of(limit) {
        return Err(Stop {
            value: chain,
            ..only(51)
        });
    }
    Ok(chain)
}

#[cfg(test)]
mod tests {
    use super::*;

    /// Functions at 0, 1, .. of these calls.
    fn told(calls: &[&[u32]]) -> (Option<u32>, u64) {
        let calls: Calls = calls
            .iter()
            .enumerate()
            .map(|(i, to)| (i as u32, to.iter().copied().collect()))
            .collect();
        let mut found = Found::default();
        found.follow(0, &calls);
        (found.again.first().copied(), found.depth[&0])
    }

    #[test]
    fn chains_and_circles() {
        assert_eq!(told(&[&[]]), (None, 1));
        assert_eq!(told(&[&[], &[2], &[1]]), (None, 1));
        assert_eq!(told(&[&[1, 2], &[3], &[], &[2]]), (None, 4));
        assert_eq!(told(&[&[0]]).0, Some(0));
        assert_eq!(told(&[&[3], &[2], &[1], &[2]]).0, Some(1));
        assert_eq!(told(&[&[1], &[2], &[1, 3], &[3]]).0, Some(1));
    }
}
