//! A small seeded source of numbers (splitmix64).

#[derive(Clone, Debug)]
pub struct Rng {
    state: u64,
}

/// One step of splitmix64's mixing, also used to derive the seed of a case from the seed of a run.
pub fn mix(value: u64) -> u64 {
    let mut z = value.wrapping_add(0x9E37_79B9_7F4A_7C15);
    z = (z ^ (z >> 30)).wrapping_mul(0xBF58_476D_1CE4_E5B9);
    z = (z ^ (z >> 27)).wrapping_mul(0x94D0_49BB_1331_11EB);
    z ^ (z >> 31)
}

/// The seed of case `index` of the run with seed `run`.
pub fn case_seed(run: u64, index: u64) -> u64 {
    mix(mix(run) ^ index.wrapping_mul(0xD134_2543_DE82_EF95))
}

impl Rng {
    pub fn new(seed: u64) -> Rng {
        Rng { state: seed }
    }

    pub fn draw(&mut self) -> u64 {
        let answer = mix(self.state);
        self.state = self.state.wrapping_add(0x9E37_79B9_7F4A_7C15);
        answer
    }

    /// 0 to `end` - 1; 0 where `end` is 0.
    pub fn below(&mut self, end: usize) -> usize {
        if end == 0 {
            return 0;
        }
        ((self.draw() as u128 * end as u128) >> 64) as usize
    }

    /// `least` to `greatest`, both included.
    pub fn between(&mut self, least: u32, greatest: u32) -> u32 {
        if least >= greatest {
            return least;
        }
        least + self.below((greatest - least) as usize + 1) as u32
    }

    /// True `part` times in `whole`.
    pub fn chance(&mut self, part: usize, whole: usize) -> bool {
        self.below(whole) < part
    }

    pub fn pick<'a, T>(&mut self, list: &'a [T]) -> &'a T {
        &list[self.below(list.len())]
    }

    /// Two different members of a list of at least two, in the list's order.
    pub fn two<T: Copy>(&mut self, list: &[T]) -> (T, T) {
        let first = self.below(list.len());
        let second = (first + 1 + self.below(list.len() - 1)) % list.len();
        (list[first.min(second)], list[first.max(second)])
    }

    pub fn shuffle<T>(&mut self, list: &mut [T]) {
        for end in (1..list.len()).rev() {
            list.swap(end, self.below(end + 1));
        }
    }
}
