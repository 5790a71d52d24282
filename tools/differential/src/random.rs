//! Random numbers from a seed (splitmix64), so that a case is made again from its number.

pub struct Random {
    state: u64,
    /// How seldom the odd is: 0 is never.
    pub sober: u64,
}

impl Random {
    pub fn new(seed: u64, case: u64) -> Random {
        let mut r = Random {
            state: seed ^ case.wrapping_mul(0xd1342543de82ef95),
            sober: 1,
        };
        r.next();
        r
    }

    pub fn next(&mut self) -> u64 {
        self.state = self.state.wrapping_add(0x9e3779b97f4a7c15);
        let mut z = self.state;
        z = (z ^ (z >> 30)).wrapping_mul(0xbf58476d1ce4e5b9);
        z = (z ^ (z >> 27)).wrapping_mul(0x94d049bb133111eb);
        z ^ (z >> 31)
    }

    /// A number below `n`, which is not 0.
    pub fn below(&mut self, n: u64) -> u64 {
        self.next() % n
    }

    pub fn index(&mut self, n: usize) -> usize {
        self.below(n as u64) as usize
    }

    /// From `a` to `b`, both included.
    pub fn range(&mut self, a: u64, b: u64) -> u64 {
        a + self.below(b - a + 1)
    }

    /// Yes in one of `n` cases.
    pub fn one_in(&mut self, n: u64) -> bool {
        self.below(n) == 0
    }

    /// Yes in one of `n` cases or fewer, as the file is sober: for what makes a file unusual.
    pub fn odd(&mut self, n: u64) -> bool {
        let yes = self.one_in(n * self.sober.max(1));
        yes && self.sober != 0
    }

    pub fn pick<T: Copy>(&mut self, from: &[T]) -> T {
        from[self.index(from.len())]
    }
}
