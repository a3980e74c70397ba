//! A small seeded source of random numbers (splitmix64), so that a stream of
//! cases can be had again from its seed.

pub struct Random {
    state: u64,
}

impl Random {
    pub fn new(seed: u64) -> Self {
        Random { state: seed }
    }

    pub fn draw(&mut self) -> u64 {
        self.state = self.state.wrapping_add(0x9e37_79b9_7f4a_7c15);
        let mut mixed = self.state;
        mixed = (mixed ^ (mixed >> 30)).wrapping_mul(0xbf58_476d_1ce4_e5b9);
        mixed = (mixed ^ (mixed >> 27)).wrapping_mul(0x94d0_49bb_1331_11eb);
        mixed ^ (mixed >> 31)
    }

    /// A number from 0 to `limit` - 1.
    pub fn below(&mut self, limit: u64) -> u64 {
        ((u128::from(self.draw()) * u128::from(limit)) >> 64) as u64
    }

    /// A number from `low` to `high`, both included.
    pub fn between(&mut self, low: usize, high: usize) -> usize {
        low + self.below((high - low) as u64 + 1) as usize
    }

    /// True in so many of a hundred cases.
    pub fn chance(&mut self, percent: u64) -> bool {
        self.below(100) < percent
    }

    pub fn pick<T: Copy>(&mut self, choices: &[T]) -> T {
        choices[self.between(0, choices.len() - 1)]
    }

    /// Picks among choices, each with its weight in front.
    pub fn weighted<T: Copy>(&mut self, choices: &[(u64, T)]) -> T {
        let total = choices.iter().map(|(weight, _)| weight).sum();
        let mut left = self.below(total);
        let mut chosen = choices[0].1;
        for &(weight, choice) in choices {
            chosen = choice;
            if left < weight {
                break;
            }
            left -= weight;
        }
        chosen
    }

    pub fn byte(&mut self) -> u8 {
        self.draw() as u8
    }

    pub fn bytes(&mut self, count: usize) -> Vec<u8> {
        (0..count).map(|_| self.byte()).collect()
    }

    pub fn numbers(&mut self, count: usize) -> Vec<u32> {
        (0..count).map(|_| self.draw() as u32).collect()
    }

    pub fn shuffle<T>(&mut self, items: &mut [T]) {
        for last in (1..items.len()).rev() {
            items.swap(last, self.between(0, last));
        }
    }
}

/// The cards in their order, those that are the same once.
pub fn each_once<T: PartialEq>(cards: Vec<T>) -> Vec<T> {
    let mut different = Vec::new();
    for card in cards {
        if !different.contains(&card) {
            different.push(card);
        }
    }
    different
}

/// Deals all of its cards in random order before any of them comes again.
pub struct Deck<T> {
    cards: Vec<T>,
    dealt: usize,
}

impl<T: Copy> Deck<T> {
    pub fn new(cards: Vec<T>) -> Self {
        assert!(!cards.is_empty());
        Deck { cards, dealt: 0 }
    }

    pub fn deal(&mut self, random: &mut Random) -> T {
        let next = self.dealt % self.cards.len();
        if next == 0 {
            random.shuffle(&mut self.cards);
        }
        self.dealt += 1;
        self.cards[next]
    }

    /// Whether every card was dealt.
    #[cfg(test)]
    pub fn is_through(&self) -> bool {
        self.dealt >= self.cards.len()
    }
}

#[cfg(test)]
mod tests {
    use super::*;

    #[test]
    fn the_same_seed_gives_the_same_numbers() {
        let mut one = Random::new(3);
        let mut two = Random::new(3);
        assert_eq!(one.bytes(50), two.bytes(50));
        assert_ne!(Random::new(4).bytes(50), Random::new(3).bytes(50));
    }

    #[test]
    fn ranges_are_kept_and_filled() {
        let mut random = Random::new(5);
        let mut seen = [false; 4];
        for _ in 0..200 {
            seen[random.between(1, 3)] = true;
        }
        assert_eq!(seen, [false, true, true, true]);
        assert_eq!(random.between(7, 7), 7);
    }

    #[test]
    fn a_deck_deals_every_card_before_it_repeats() {
        let mut random = Random::new(6);
        let mut deck = Deck::new((0..10).collect());
        for _ in 0..3 {
            let mut round: Vec<i32> = (0..10).map(|_| deck.deal(&mut random)).collect();
            round.sort();
            assert_eq!(round, (0..10).collect::<Vec<_>>());
        }
    }
}
