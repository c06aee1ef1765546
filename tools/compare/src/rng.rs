//! A small seeded generator (splitmix64), so that every recording and every comparison can be repeated. It can note what it drew and draw it
//! again with some of it made smaller: that is how a differing input is made small.
#[derive(Clone, Default)]
pub struct Rng {
    state: u64,
    noted: Option<Vec<u64>>,
    again: Option<(Vec<u64>, usize)>,
}

impl Rng {
    pub fn new(seed: u64) -> Rng {
        Rng { state: seed, ..Rng::default() }
    }

    /// Notes what it draws.
    #[cfg(feature = "archive")]
    pub fn noting(seed: u64) -> Rng {
        Rng { noted: Some(Vec::new()), ..Rng::new(seed) }
    }

    /// Draws these, each held below its bound, and then zeros.
    #[cfg(feature = "archive")]
    pub fn again(drawn: Vec<u64>) -> Rng {
        Rng { again: Some((drawn, 0)), ..Rng::default() }
    }

    #[cfg(feature = "archive")]
    pub fn noted(self) -> Vec<u64> {
        self.noted.unwrap_or_default()
    }

    fn step(&mut self) -> u64 {
        self.state = self.state.wrapping_add(0x9e3779b97f4a7c15);
        let mut z = self.state;
        z = (z ^ (z >> 30)).wrapping_mul(0xbf58476d1ce4e5b9);
        z = (z ^ (z >> 27)).wrapping_mul(0x94d049bb133111eb);
        z ^ (z >> 31)
    }

    /// A number below n, and any number for 0.
    fn draw(&mut self, n: u64) -> u64 {
        let drawn = match &mut self.again {
            Some((drawn, at)) => {
                *at += 1;
                let value = drawn.get(*at - 1).copied().unwrap_or(0);
                if n == 0 {
                    value
                } else {
                    value.min(n - 1)
                }
            }
            None => {
                let value = self.step();
                if n == 0 {
                    value
                } else {
                    value % n
                }
            }
        };
        if let Some(noted) = &mut self.noted {
            noted.push(drawn);
        }
        drawn
    }

    pub fn next(&mut self) -> u64 {
        self.draw(0)
    }

    /// A number of low..=high.
    pub fn range(&mut self, low: i64, high: i64) -> i64 {
        low + self.draw((high - low + 1) as u64) as i64
    }

    /// A number below n.
    pub fn below(&mut self, n: usize) -> usize {
        self.draw(n as u64) as usize
    }

    /// True once in n.
    pub fn one_in(&mut self, n: usize) -> bool {
        self.below(n) == 0
    }

    pub fn pick<T: Copy>(&mut self, from: &[T]) -> T {
        from[self.below(from.len())]
    }
}
