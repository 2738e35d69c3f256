//! A small seeded source of numbers, so that one seed always gives the same requests.

/// The splitmix generator of 64 bits.
pub struct Random {
    state: u64,
}

impl Random {
    pub fn new(seed: u64) -> Random {
        Random { state: seed }
    }

    pub fn next(&mut self) -> u64 {
        self.state = self.state.wrapping_add(0x9e37_79b9_7f4a_7c15);
        let mut mixed = self.state;
        mixed = (mixed ^ (mixed >> 30)).wrapping_mul(0xbf58_476d_1ce4_e5b9);
        mixed = (mixed ^ (mixed >> 27)).wrapping_mul(0x94d0_49bb_1331_11eb);
        mixed ^ (mixed >> 31)
    }

    /// A number from 0 to one less than the limit, which is not 0.
    pub fn below(&mut self, limit: usize) -> usize {
        let number = self.next() % limit as u64;
        usize::try_from(number).expect("it is below a usize")
    }

    pub fn one_in(&mut self, count: usize) -> bool {
        self.below(count) == 0
    }

    pub fn octet(&mut self) -> u8 {
        self.next().to_le_bytes()[0]
    }

    /// A number below the limit, or now and then two different ones, the lower first.
    pub fn one_or_two(&mut self, limit: usize) -> Vec<usize> {
        let (left, right) = (self.below(limit), self.below(limit));
        if left < right && self.one_in(2) {
            vec![left, right]
        } else {
            vec![left]
        }
    }

    pub fn pick<T: Copy>(&mut self, choices: &[T]) -> T {
        choices[self.below(choices.len())]
    }
}

#[cfg(test)]
mod tests {
    use super::Random;

    #[test]
    fn it_is_the_splitmix_generator() {
        let mut random = Random::new(1_234_567);
        assert_eq!(random.next(), 6_457_827_717_110_365_317);
        assert_eq!(random.next(), 3_203_168_211_198_807_973);
        assert_eq!(random.next(), 9_817_491_932_198_370_423);
    }

    #[test]
    fn numbers_stay_below_their_limit() {
        let mut random = Random::new(1);
        let mut seen = [false; 5];
        for _ in 0..1000 {
            seen[random.below(5)] = true;
        }
        assert_eq!(seen, [true; 5]);
        assert_eq!(random.below(1), 0);
    }

    #[test]
    fn one_number_or_two_different_ones() {
        let mut random = Random::new(2);
        let drawn: Vec<Vec<usize>> = (0..1000).map(|_| random.one_or_two(4)).collect();
        for numbers in &drawn {
            assert!(numbers.iter().all(|&number| number < 4));
            assert!(numbers.len() == 1 || numbers[0] < numbers[1]);
        }
        assert!(drawn.iter().filter(|numbers| numbers.len() == 2).count() > 100);
        for number in 0..4 {
            assert!(drawn.contains(&vec![number]));
        }
    }
}
