//! Numbers by chance, the same on every machine: splitmix64.

#[derive(Clone)]
pub struct Chance(u64);

impl Chance {
    pub fn new(seed: u64) -> Chance {
        Chance(seed)
    }

    pub fn next(&mut self) -> u64 {
        self.0 = self.0.wrapping_add(0x9E37_79B9_7F4A_7C15);
        let mut z = self.0;
        z = (z ^ z >> 30).wrapping_mul(0xBF58_476D_1CE4_E5B9);
        z = (z ^ z >> 27).wrapping_mul(0x94D0_49BB_1331_11EB);
        z ^ z >> 31
    }

    /// A number from 0 to `end` - 1.
    pub fn below(&mut self, end: usize) -> usize {
        (self.next() % end as u64) as usize
    }

    /// A number from `first` to `last`.
    pub fn from(&mut self, first: usize, last: usize) -> usize {
        first + self.below(last - first + 1)
    }

    /// Yes in so many of a hundred cases.
    pub fn percent(&mut self, yes: usize) -> bool {
        self.below(100) < yes
    }

    pub fn pick<T: Clone>(&mut self, list: &[T]) -> T {
        list[self.below(list.len())].clone()
    }

    pub fn shuffle<T>(&mut self, list: &mut [T]) {
        for i in 1..list.len() {
            list.swap(i, self.from(0, i));
        }
    }

    /// So many different numbers from 1 to `last`: some from its beginning, some from its end, some
    /// from anywhere.
    pub fn different(&mut self, count: usize, last: usize) -> Vec<usize> {
        let mut numbers = vec![];
        while numbers.len() < count {
            let number = match self.below(4) {
                0 => last - self.below(last.min(3)),
                1 => self.from(1, last),
                _ => self.from(1, last.min(2 * count)),
            };
            if !numbers.contains(&number) {
                numbers.push(number);
            }
        }
        numbers
    }
}
