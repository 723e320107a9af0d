//! Errors in salvage.

use reference::answer::{CUT, MANY, ROOM, TWICE};
use reference::{salvage, Salvaged};

use crate::salvage::{Loss, Salvage, LOSS};

/// All of them, by name.
pub const ALL: &[(&str, Salvage)] = &[
    ("a_65th_that_is_many_though_it_is_cut", A_65TH_THAT_IS_MANY_THOUGH_IT_IS_CUT),
    ("a_stop_that_has_one_header", A_STOP_THAT_HAS_ONE_HEADER),
    ("neighbours_that_are_merged", NEIGHBOURS_THAT_ARE_MERGED),
    ("a_loss_that_counts_for_twice", A_LOSS_THAT_COUNTS_FOR_TWICE),
    ("stray_bytes_that_are_passed_over", STRAY_BYTES_THAT_ARE_PASSED_OVER),
    ("starts_behind_the_header", STARTS_BEHIND_THE_HEADER),
    ("the_room_of_records_first", THE_ROOM_OF_RECORDS_FIRST),
    ("a_file_written_without_its_records", A_FILE_WRITTEN_WITHOUT_ITS_RECORDS),
    ("losses_counted_beside_a_refusal", LOSSES_COUNTED_BESIDE_A_REFUSAL),
    ("what_is_kept_in_the_order_of_the_file", WHAT_IS_KEPT_IN_THE_ORDER_OF_THE_FILE),
];

/// Salvage whose losses are changed before they are written; no more of them than there were.
fn with_losses(
    file: &[u8],
    out: &mut [u8],
    losses: &mut [u8],
    change: impl Fn(&mut Vec<Loss>),
) -> Salvaged {
    let mut own = losses.to_vec();
    let answer = salvage(file, out, &mut own);
    let (records, _) = own.split_at(LOSS * answer.losses as usize);
    let mut changed: Vec<Loss> = records.chunks_exact(LOSS).map(Loss::of).collect();
    change(&mut changed);
    for (record, loss) in losses.chunks_exact_mut(LOSS).zip(&changed) {
        record.copy_from_slice(&loss.record());
    }
    Salvaged { losses: changed.len() as u64, ..answer }
}

/// Of a 65th section that does not fit the reader's MANY is told.
pub const A_65TH_THAT_IS_MANY_THOUGH_IT_IS_CUT: Salvage = |file, out, losses| {
    with_losses(file, out, losses, |losses| {
        let read = reference::check(file);
        for loss in losses {
            if loss.number == CUT && read.number == MANY && read.place == loss.start as u64 {
                loss.number = MANY;
            }
        }
    })
};

/// The stop covers no more than the header of a section.
pub const A_STOP_THAT_HAS_ONE_HEADER: Salvage = |file, out, losses| {
    with_losses(file, out, losses, |losses| {
        for loss in losses {
            if loss.number == CUT {
                loss.bytes = loss.bytes.min(16);
            }
        }
    })
};

/// Two losses side by side for one reason are one.
pub const NEIGHBOURS_THAT_ARE_MERGED: Salvage = |file, out, losses| {
    with_losses(file, out, losses, |losses| {
        losses.dedup_by(|next, loss| {
            let joins = loss.number == next.number && loss.start + loss.bytes == next.start;
            if joins {
                loss.bytes += next.bytes;
            }
            joins
        });
    })
};

/// A second loss of one id is told as TWICE, as if the first had been kept.
pub const A_LOSS_THAT_COUNTS_FOR_TWICE: Salvage = |file, out, losses| {
    with_losses(file, out, losses, |losses| {
        for at in 1..losses.len() {
            let id = |loss: &Loss| file[loss.start..].first_chunk::<4>();
            let again = losses[..at].iter().any(|before| id(before) == id(&losses[at]));
            if again && ![CUT, MANY].contains(&losses[at].number) {
                losses[at].number = TWICE;
            }
        }
    })
};

/// Fewer bytes than a section's header has, at the end of the file, are no loss.
pub const STRAY_BYTES_THAT_ARE_PASSED_OVER: Salvage = |file, out, losses| {
    with_losses(file, out, losses, |losses| losses.retain(|loss| loss.bytes >= 16))
};

/// The start of a loss counts from the end of the header.
pub const STARTS_BEHIND_THE_HEADER: Salvage = |file, out, losses| {
    with_losses(file, out, losses, |losses| losses.iter_mut().for_each(|loss| loss.start -= 16))
};

/// Where both outputs are too short, the records' length is told.
pub const THE_ROOM_OF_RECORDS_FIRST: Salvage = |file, out, losses| {
    let answer = salvage(file, out, losses);
    match salvage(file, &mut vec![0; file.len()], losses) {
        records if records.number == ROOM => records,
        _ => answer,
    }
};

/// The file is written before the records' room is asked.
pub const A_FILE_WRITTEN_WITHOUT_ITS_RECORDS: Salvage = |file, out, losses| {
    let answer = salvage(file, out, losses);
    if answer.number == ROOM {
        let _ = salvage(file, out, &mut vec![0; 2 * file.len()]);
    }
    answer
};

/// The losses are counted though nothing was written.
pub const LOSSES_COUNTED_BESIDE_A_REFUSAL: Salvage = |file, out, losses| {
    let answer = salvage(file, out, losses);
    match answer.number {
        ROOM => {
            let roomy = salvage(file, &mut vec![0; file.len()], &mut vec![0; 2 * file.len()]);
            Salvaged { losses: roomy.losses, ..answer }
        }
        _ => answer,
    }
};

/// What is kept is copied, and not put in order.
pub const WHAT_IS_KEPT_IN_THE_ORDER_OF_THE_FILE: Salvage = |file, out, losses| {
    let answer = salvage(file, out, losses);
    if answer.number == 0 && answer.losses == 0 && answer.place == file.len() as u64 {
        out[..file.len()].copy_from_slice(file);
    }
    answer
};
