//! Cards: carried through shifts of edits, and untrue in every way.

use differential::compare::Comparison;
use differential::edits::{card, numbers, Edit, BOUNDS};
use differential::make::{self, DeviceKey};
use differential::random::Random;
use reference::answer::ROOM;
use reference::{Card, Edited};

/// A key or an id of few, so that edits meet what is there.
fn key(random: &mut Random) -> DeviceKey {
    (random.below(4) as u32, random.below(2) as u16, 0)
}

/// Any edit, with what it brings in `bytes`.
fn edit<'a>(random: &mut Random, bytes: &'a [u8]) -> Edit<'a> {
    let (first, second) = bytes.split_at(random.below(bytes.len() + 1));
    match random.below(5) {
        0 => Edit::AddDevice(key(random), bytes),
        1 => Edit::AddDisk(random.below(4) as u32, first, second),
        2 => Edit::RemoveDevice(key(random)),
        3 => Edit::RemoveDisk(random.below(4) as u32),
        _ => Edit::ReplaceDevice(key(random), bytes),
    }
}

/// An edit by the calls that are compared, with as much room as it needs.
fn roomy(run: &Comparison, file: &[u8], card: Card, edit: Edit) -> (Edited, Vec<u8>) {
    let mut out = vec![0; file.len() + 200];
    let edited = (run.edits.edit)(file, card, edit, &mut out);
    out.truncate(if edited.number == 0 { edited.place as usize } else { 0 });
    (edited, out)
}

/// Shifts of adds, removals and replacements, with the card that each call hands back given to the next: it is always the card of
/// the file, and what is refused leaves both.
pub fn shifts(run: &mut Comparison) {
    for _ in 0..6_000 {
        let mut file = make::file(&mut run.random).bytes;
        let mut card = run.open(&file);
        for _ in 0..12 {
            let length = run.random.below(30);
            let bytes = vec![b'a'; length];
            let edit = edit(&mut run.random, &bytes);
            run.edit(&file, edit);
            let (edited, out) = roomy(run, &file, card, edit);
            if edited.number == 0 {
                file = out;
            }
            card = edited.card;
            assert_eq!(run.open(&file), card, "a shift: input {}", run.inputs);
        }
    }
}

/// Each number of the card wrong alone, by values about 0, about what the edit moves it by, about its bounds and about 2^64.
pub fn one_number(run: &mut Comparison) {
    for _ in 0..1_500 {
        let file = make::file(&mut run.random).bytes;
        let truth = run.open(&file);
        let length = run.random.below(40);
        let bytes = vec![b'b'; length];
        let edit = edit(&mut run.random, &bytes);
        let (answer, _) = run.edit(&file, edit);
        let made = (run.edits.edit)(&file, truth, edit, &mut vec![0; file.len() + 200]);
        if answer.number == ROOM {
            continue;
        }
        for at in 0..4 {
            for value in values(numbers(truth)[at], numbers(made.card)[at], BOUNDS[at]) {
                let mut changed = numbers(truth);
                changed[at] = value;
                run.inputs += 1;
                run.edit_beside_untrue(&file, card(changed), edit, made);
            }
        }
    }
}

fn values(before: u64, after: u64, (low, high): (u64, u64)) -> Vec<u64> {
    let moved = after.wrapping_sub(before);
    let mut values = vec![];
    for edge in [0, low, high, 1 << 63, u64::MAX] {
        for near in [u64::MAX - 1, u64::MAX, 0, 1, 2] {
            values.push(edge.wrapping_add(near));
            values.push(edge.wrapping_sub(moved).wrapping_add(near));
        }
    }
    values.sort_unstable();
    values.dedup();
    values
}

/// Cards with four numbers of any kind.
pub fn any(run: &mut Comparison) {
    for _ in 0..60_000 {
        let file = make::file(&mut run.random).bytes;
        let length = run.random.below(40);
        let bytes = vec![b'c'; length];
        let edit = edit(&mut run.random, &bytes);
        let truth = run.open(&file);
        let (answer, _) = run.edit(&file, edit);
        if answer.number == ROOM {
            continue;
        }
        let (made, _) = roomy(run, &file, truth, edit);
        let given = BOUNDS.map(|(low, high)| match run.random.below(6) {
            0 => low,
            1 => high,
            2 => run.random.u64(),
            3 => u64::MAX - run.random.below(50) as u64,
            4 => high - run.random.below(50) as u64,
            _ => low + run.random.below(50) as u64,
        });
        run.inputs += 1;
        run.edit_beside_untrue(&file, card(given), edit, made);
    }
}
