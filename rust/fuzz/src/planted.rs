//! Errors planted in the reference, to stand in the library's place: the search has to find each of them.

use differential::planted;
use reference::answer::{CUT, KEY, MANY, SECVER, TEXT, VALUE};
use reference::{Answer, Meta};

use crate::subject::{
    cards, files, messages, meta, regions, salvage, states, tables, wrappers, Call, Subject,
};

const TAKEN: Answer = Answer { number: 0, place: 0 };

/// A subject whose library is the reference, with an error in one call.
fn with(mut subject: Subject, call: &str, error: Call) -> Subject {
    let at = subject.pairs.iter().position(|pair| pair.name == call).expect("a call of that name");
    let pair = &mut subject.pairs[at];
    pair.ours = error;
    subject
}

/// All of them, by name: those of the differential tests, and some in files, wrappers and messages.
pub fn all() -> Vec<(&'static str, Subject)> {
    let mut all: Vec<(&str, Subject)> =
        planted::rings::ALL.iter().map(|(name, calls)| (*name, regions(*calls))).collect();
    let sheets = planted::sheets::ALL.iter().chain(planted::sheets::WORDS);
    all.extend(sheets.map(|(name, calls)| (*name, states(*calls))));
    all.extend(planted::cards::ALL.iter().map(|(name, calls)| (*name, cards(*calls))));
    all.extend(planted::many::ALL.iter().map(|(name, calls)| (*name, tables(*calls))));
    let in_salvage = planted::salvage::ALL.iter();
    all.extend(in_salvage.map(|(name, call)| (*name, with(files(), "salvage", salvage(*call)))));
    let check = |error: fn(&[u8], Answer) -> Answer| -> Subject {
        with(files(), "check", Box::new(move |file, _| error(file, reference::check(file))))
    };
    all.extend([
        (
            "a length that wraps",
            check(|file, answer| match answer {
                Answer { number: CUT, place } if length_at(file, place) >= 1 << 63 => TAKEN,
                _ => answer,
            }),
        ),
        (
            "a character of two bytes that would do with one",
            check(|file, answer| match answer {
                Answer { number: TEXT, place } if file[place as usize] == 0xC0 => TAKEN,
                _ => answer,
            }),
        ),
        (
            "a 65th section that is taken",
            check(|_, answer| if answer.number == MANY { TAKEN } else { answer }),
        ),
        (
            "a key again, named at the first entry",
            check(|_, answer| match answer {
                Answer { number: KEY, place } => Answer { number: KEY, place: place.min(52) },
                _ => answer,
            }),
        ),
        (
            "a version, named at its section's start",
            check(|_, answer| match answer {
                Answer { number: SECVER, place } => Answer { number: SECVER, place: place - 4 },
                _ => answer,
            }),
        ),
        (
            "a canonical form that is a copy",
            with(
                files(),
                "canonical",
                Box::new(|file, out| {
                    let answer = reference::canonical(file, out);
                    if answer.number == 0 && answer.place == file.len() as u64 {
                        out[..file.len()].copy_from_slice(file);
                    }
                    answer
                }),
            ),
        ),
        (
            "a refused add that writes",
            with(
                files(),
                "add_device",
                Box::new(|file, out| {
                    let card = reference::open(file).card;
                    let answer = reference::add_device(file, card, 3, 1, 0, b"new", out).answer();
                    if answer.number == reference::answer::HAVE && !out.is_empty() {
                        out[0] ^= 1;
                    }
                    answer
                }),
            ),
        ),
        (
            "a controller's position that is its number in the table",
            with(
                wrappers(),
                "controllers",
                Box::new(|wrapper, out| {
                    let answer = reference::controllers(wrapper, out);
                    let mut number = 0u32;
                    each_record(answer, out, |record| {
                        record[24..28].copy_from_slice(&number.to_le_bytes());
                        number += 1;
                    })
                }),
            ),
        ),
        (
            "a state's place that is its entry's",
            with(
                files(),
                "mmus",
                Box::new(|file, out| {
                    let answer = reference::mmus(file, out);
                    each_record(answer, out, |record| {
                        let place = u64::from_le_bytes(record[8..16].try_into().unwrap());
                        record[8..16].copy_from_slice(&(place - 4).to_le_bytes());
                    })
                }),
            ),
        ),
        (
            "a blob whose length is not told",
            with(
                files(),
                "cpus",
                Box::new(|file, out| {
                    let answer = reference::cpus(file, out);
                    each_record(answer, out, |record| record[16..24].fill(0))
                }),
            ),
        ),
        (
            "META of a file that is refused behind it",
            with(
                files(),
                "meta",
                meta(|file| match reference::meta(file) {
                    (Answer { number: CUT, place }, _) => reference::meta(&file[..place as usize]),
                    told => told,
                }),
            ),
        ),
        (
            "a label's place that is its length's",
            with(
                files(),
                "meta",
                meta(|file| {
                    let (answer, said) = reference::meta(file);
                    let label = said.and_then(|said| said.label);
                    let label = label.map(|(place, length)| (place - 4, length));
                    (answer, said.map(|said| Meta { label, ..said }))
                }),
            ),
        ),
        (
            "a message whose ok is 2",
            with(
                messages(),
                "message_read",
                Box::new(|message, out| {
                    out[message.len()..].fill(0);
                    match reference::message_read(message) {
                        read if read.number == VALUE => TAKEN,
                        read => Answer { number: read.number, place: read.place },
                    }
                }),
            ),
        ),
    ]);
    all
}

/// Does something to each record of a table that was written; the answer stays.
fn each_record(answer: Answer, out: &mut [u8], spoil: impl FnMut(&mut [u8])) -> Answer {
    let written = if answer.number == 0 { answer.place as usize } else { 0 };
    out[..written].chunks_exact_mut(32).for_each(spoil);
    answer
}

/// The length that a section's header says.
fn length_at(file: &[u8], section: u64) -> u64 {
    let start = section as usize + 8;
    match file.get(start..start + 8) {
        Some(bytes) => u64::from_le_bytes(bytes.try_into().expect("eight bytes")),
        None => 0,
    }
}
