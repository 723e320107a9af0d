//! The card of a canonical file: its length, its sections, its devices and the bytes of their payloads, kept up to date by edits.

use crate::answer::{ask, Answer, Taken, CARD};

/// Four numbers that a display shows.
#[repr(C)]
#[derive(Clone, Copy, Debug, Default, PartialEq, Eq)]
pub struct Card {
    pub length: u64,
    pub sections: u64,
    pub devices: u64,
    pub payloads: u64,
}

/// What opening and editing answer; the index is that of a refused entry among many.
#[repr(C)]
#[derive(Clone, Copy, Debug, PartialEq, Eq)]
pub struct Edited {
    pub number: u32,
    pub index: u32,
    pub place: u64,
    pub card: Card,
}

impl Edited {
    /// Number and place alone.
    pub fn answer(self) -> Answer {
        Answer { number: self.number, place: self.place }
    }
}

/// From which number to which each number of a card may go.
const BOUNDS: [(i128, i128); 4] = [(16, 1024 << 20), (0, 64), (0, 4096), (0, 256 << 20)];

impl Card {
    fn numbers(self) -> [i128; 4] {
        [self.length, self.sections, self.devices, self.payloads].map(i128::from)
    }

    /// Moved by what differs between two true cards. The numbers are wide, so that none wraps and none stops at 0; each has to
    /// be within its bounds afterwards, moved or not.
    pub fn moved(self, before: Card, after: Card) -> Taken<Card> {
        let (from, to) = (before.numbers(), after.numbers());
        let mut numbers = self.numbers();
        for at in 0..4 {
            numbers[at] += to[at] - from[at];
            ask((BOUNDS[at].0..=BOUNDS[at].1).contains(&numbers[at]), CARD, 0)?;
        }
        let [length, sections, devices, payloads] = numbers.map(|number| number as u64);
        Ok(Card { length, sections, devices, payloads })
    }
}

/// The answer of opening: beside a refusal the card says nothing.
pub fn opened(result: Taken<Card>) -> Edited {
    match result {
        Ok(card) => Edited { number: 0, index: 0, place: 0, card },
        Err(Answer { number, place }) => Edited { number, index: 0, place, card: Card::default() },
    }
}

/// The answer of an edit beside a card, which a refusal hands back.
pub fn edited(card: Card, result: Taken<(usize, Card)>) -> Edited {
    match result {
        Ok((written, card)) => Edited { number: 0, index: 0, place: written as u64, card },
        Err(Answer { number, place }) => Edited { number, index: 0, place, card },
    }
}

#[cfg(test)]
mod tests {
    use super::*;

    fn card(length: u64, sections: u64, devices: u64, payloads: u64) -> Card {
        Card { length, sections, devices, payloads }
    }

    #[test]
    fn numbers_move_without_wrapping_or_stopping() {
        let (less, more) = (card(16, 0, 0, 0), card(54, 1, 1, 2));
        assert_eq!(card(16, 0, 0, 0).moved(less, more), Ok(more));
        assert_eq!(more.moved(more, less), Ok(less));
        let refused = Err(Answer { number: CARD, place: 0 });
        for untrue in [
            card(u64::MAX, 0, 0, 0),
            card((1024 << 20) - 37, 0, 0, 0),
            card(16, 64, 0, 0),
            card(16, 0, 4096, 0),
            card(16, 0, 0, (256 << 20) - 1),
            card(16, 0, 0, u64::MAX - 1),
        ] {
            assert_eq!(untrue.moved(less, more), refused, "{untrue:?}");
        }
        for untrue in [card(53, 1, 1, 2), card(54, 0, 1, 2), card(54, 1, 0, 2), card(54, 1, 1, 1)] {
            assert_eq!(untrue.moved(more, less), refused, "{untrue:?}");
        }
        assert_eq!(
            card((1024 << 20) - 38, 63, 4095, 9).moved(less, more).map(|k| k.length),
            Ok(1024 << 20)
        );
        // A number that does not move is asked as well.
        assert_eq!(card(15, 0, 0, 0).moved(less, less), refused);
        assert_eq!(card(16, 65, 0, 0).moved(less, less), refused);
    }
}
