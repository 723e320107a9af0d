//! Errors in cards.

use reference::answer::{CARD, ROOM};
use reference::{Card, Edited};

use crate::edits::{self, card, numbers, Edit, EditCalls, BOUNDS};

/// All of them, by name.
pub const ALL: &[(&str, EditCalls)] = &[
    ("a_card_that_stays", A_CARD_THAT_STAYS),
    ("a_card_that_a_refusal_empties", A_CARD_THAT_A_REFUSAL_EMPTIES),
    ("a_card_of_the_file_as_it_is", A_CARD_OF_THE_FILE_AS_IT_IS),
    ("a_number_that_stops_at_0", A_NUMBER_THAT_STOPS_AT_0),
    ("a_sum_that_wraps", A_SUM_THAT_WRAPS),
    ("a_bound_that_is_asked_if_it_moves", A_BOUND_THAT_IS_ASKED_IF_IT_MOVES),
    ("a_length_below_a_header", A_LENGTH_BELOW_A_HEADER),
    ("a_card_before_room", A_CARD_BEFORE_ROOM),
    ("an_edit_that_writes_before_its_card", AN_EDIT_THAT_WRITES_BEFORE_ITS_CARD),
];

/// The edit beside the true card of its file, which is taken or refused whatever card there is: that card, and the answer.
fn beside_the_true(file: &[u8], edit: Edit, out: &mut [u8]) -> (Card, Edited) {
    let truth = reference::open(file).card;
    (truth, (edits::REFERENCE.edit)(file, truth, edit, out))
}

/// A card that is moved otherwise: by the number, what it is moved from and to, and its bounds; none is CARD.
fn moved_by(
    (file, given, edit): (&[u8], Card, Edit),
    out: &mut [u8],
    to: impl Fn(u64, u64, u64, (u64, u64)) -> Option<u64>,
) -> Edited {
    let before = out.to_vec();
    let (truth, made) = beside_the_true(file, edit, out);
    if made.number != 0 {
        return Edited { card: given, ..made };
    }
    let (given_as, from, after) = (numbers(given), numbers(truth), numbers(made.card));
    let mut moved = [0; 4];
    for at in 0..4 {
        match to(given_as[at], from[at], after[at], BOUNDS[at]) {
            Some(number) => moved[at] = number,
            None => {
                out.copy_from_slice(&before);
                return Edited { number: CARD, index: 0, place: 0, card: given };
            }
        }
    }
    Edited { card: card(moved), ..made }
}

/// A number within its bounds.
fn within(number: u64, (low, high): (u64, u64)) -> Option<u64> {
    (low..=high).contains(&number).then_some(number)
}

/// The card comes back as it went in.
pub const A_CARD_THAT_STAYS: EditCalls = EditCalls {
    edit: |file: &[u8], card, edit, out: &mut [u8]| Edited {
        card,
        ..(edits::REFERENCE.edit)(file, card, edit, out)
    },
    ..edits::REFERENCE
};

/// Beside a refusal the card's numbers are 0.
pub const A_CARD_THAT_A_REFUSAL_EMPTIES: EditCalls = EditCalls {
    edit: |file: &[u8], card, edit, out: &mut [u8]| {
        let edited = (edits::REFERENCE.edit)(file, card, edit, out);
        match edited.number {
            0 => edited,
            _ => Edited { card: Card::default(), ..edited },
        }
    },
    ..edits::REFERENCE
};

/// Opening tells the length of the file, not of its canonical form.
pub const A_CARD_OF_THE_FILE_AS_IT_IS: EditCalls = EditCalls {
    open: |file: &[u8]| {
        let opened = reference::open(file);
        match opened.number {
            0 => Edited { card: Card { length: file.len() as u64, ..opened.card }, ..opened },
            _ => opened,
        }
    },
    ..edits::REFERENCE
};

/// A number below what is taken from it becomes 0.
pub const A_NUMBER_THAT_STOPS_AT_0: EditCalls = EditCalls {
    edit: |file: &[u8], card, edit, out: &mut [u8]| {
        moved_by((file, card, edit), out, |number, from, to, bounds| {
            within((number.saturating_add(to)).saturating_sub(from), bounds)
        })
    },
    ..edits::REFERENCE
};

/// A number near 2^64 wraps into its bounds.
pub const A_SUM_THAT_WRAPS: EditCalls = EditCalls {
    edit: |file: &[u8], card, edit, out: &mut [u8]| {
        moved_by((file, card, edit), out, |number, from, to, bounds| {
            within(number.wrapping_add(to).wrapping_sub(from), bounds)
        })
    },
    ..edits::REFERENCE
};

/// A number that does not move may be anything.
pub const A_BOUND_THAT_IS_ASKED_IF_IT_MOVES: EditCalls = EditCalls {
    edit: |file: &[u8], card, edit, out: &mut [u8]| {
        moved_by((file, card, edit), out, |number, from, to, bounds| match from == to {
            true => Some(number),
            false => within(
                u64::try_from(i128::from(number) + i128::from(to) - i128::from(from)).ok()?,
                bounds,
            ),
        })
    },
    ..edits::REFERENCE
};

/// A length may be anything up to the longest.
pub const A_LENGTH_BELOW_A_HEADER: EditCalls = EditCalls {
    edit: |file: &[u8], card, edit, out: &mut [u8]| {
        moved_by((file, card, edit), out, |number, from, to, (_, high)| {
            within(
                u64::try_from(i128::from(number) + i128::from(to) - i128::from(from)).ok()?,
                (0, high),
            )
        })
    },
    ..edits::REFERENCE
};

/// The card is asked before the room.
pub const A_CARD_BEFORE_ROOM: EditCalls = EditCalls {
    edit: |file: &[u8], card, edit, out: &mut [u8]| {
        let edited = (edits::REFERENCE.edit)(file, card, edit, out);
        if edited.number != ROOM {
            return edited;
        }
        let mut enough = vec![0; edited.place as usize];
        match (edits::REFERENCE.edit)(file, card, edit, &mut enough) {
            asked if asked.number == CARD => asked,
            _ => edited,
        }
    },
    ..edits::REFERENCE
};

/// The file is written although the card refuses.
pub const AN_EDIT_THAT_WRITES_BEFORE_ITS_CARD: EditCalls = EditCalls {
    edit: |file: &[u8], card, edit, out: &mut [u8]| {
        let edited = (edits::REFERENCE.edit)(file, card, edit, out);
        if edited.number == CARD {
            beside_the_true(file, edit, out);
        }
        edited
    },
    ..edits::REFERENCE
};
