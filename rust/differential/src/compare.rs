//! One input given to the library and to the reference.
//!
//! Lent memory is laid with a pattern first, with a margin on both sides that belongs to nobody, and all
//! of it is compared afterwards: between the two, and, where nothing should have been written, with the
//! pattern. The inputs have to be what they were. The first difference ends the run.

use std::fmt::Debug;

use reference::{Answer, Readiness, Reading};

use crate::counts::Counts;
use crate::edits::{Edit, EditCalls};
use crate::library;
use crate::random::Random;
use crate::rings::RingCalls;
use crate::salvage::Salvage;
use crate::sheets::SheetCalls;

const ROOM: u32 = 16;
pub(crate) const MARGIN: usize = 16;
/// An input longer than this is shown by its first bytes; the seed and its number make it again.
const SHOWN: usize = 8192;

/// A run over inputs of one sort.
pub struct Comparison {
    pub name: &'static str,
    seed: u64,
    pub random: Random,
    pub inputs: u64,
    pub calls: u64,
    pub answers: Counts,
    /// The calls that the reference's are compared with on regions; the library's but where a control plants errors.
    pub rings: RingCalls,
    /// The same on states.
    pub sheets: SheetCalls,
    /// The calls that the reference's are compared with beside a card.
    pub edits: EditCalls,
    /// The numbers that untrue cards are made of, apart from those of the inputs.
    pub(crate) cards: Random,
    /// The same for salvage.
    pub salvage: Salvage,
    /// Whether exactly the memory needed is lent, as for outputs too long to write often.
    pub exact: bool,
    /// The library's and the reference's lent memory, with margins.
    pub(crate) ours: Vec<u8>,
    pub(crate) theirs: Vec<u8>,
}

/// The number and the place in what a call answers.
pub(crate) trait Answered: Copy + PartialEq + Debug {
    fn answer(&self) -> Answer;
}

impl Answered for Answer {
    fn answer(&self) -> Answer {
        *self
    }
}

/// A call that takes a file or a wrapper and lent memory.
type Call = fn(&[u8], &mut [u8]) -> Answer;

/// The calls on a file with an output: the library's and the reference's.
const FILE_CALLS: [(&str, Call, Call); 6] = [
    ("sections", library::sections, reference::sections),
    ("devices", library::devices, reference::devices),
    ("disks", library::disks, reference::disks),
    ("cpus", library::cpus, reference::cpus),
    ("mmus", library::mmus, reference::mmus),
    ("canonical", library::canonical, reference::canonical),
];

/// The edits of a file, small ones.
const FILE_EDITS: [Edit; 5] = [
    Edit::AddDevice((3, 1, 0), b"new"),
    Edit::AddDisk(256, b"base", b""),
    Edit::RemoveDevice((3, 1, 0)),
    Edit::RemoveDisk(256),
    Edit::ReplaceDevice((3, 1, 0), b"another"),
];

/// The same for wrappers.
const WRAPPER_CALLS: [(&str, Call, Call); 2] = [
    ("controllers", library::controllers, reference::controllers),
    ("wrapper_canonical", library::wrapper_canonical, reference::wrapper_canonical),
];

impl Comparison {
    pub fn new(name: &'static str, seed: u64) -> Self {
        Comparison {
            name,
            seed,
            random: Random::new(seed),
            inputs: 0,
            calls: 0,
            answers: Counts::default(),
            rings: library::RINGS,
            sheets: library::SHEETS,
            edits: library::EDITS,
            cards: Random::new(!seed),
            salvage: library::salvage,
            exact: false,
            ours: vec![],
            theirs: vec![],
        }
    }

    /// Every call that takes a file, the edits with a small entry; the answer to `check`.
    pub fn file(&mut self, file: &[u8]) -> Answer {
        self.inputs += 1;
        let before = fingerprint(file);
        let (ours, theirs) = (library::check(file), reference::check(file));
        let answer = self.answer("check", &[file], ours, theirs);
        let (ours, theirs) = (library::meta(file), reference::meta(file));
        self.answer("meta", &[file], ours.0, theirs.0);
        assert_eq!(ours.1, theirs.1, "meta of {:02X?}", &file[..file.len().min(SHOWN)]);
        let card = self.open(file);
        self.outputs(&FILE_CALLS, file);
        for edit in FILE_EDITS {
            self.edit_beside(file, card, edit);
        }
        self.ready_somewhere(file);
        self.salvage_short(file);
        self.unchanged(before, file);
        answer
    }

    /// Readiness of a file, with a list whose length is chosen about what the reference needs; and with room for all nine
    /// pairs what the reference answers and lists.
    pub fn ready(&mut self, file: &[u8]) -> (Readiness, Vec<u8>) {
        self.inputs += 1;
        let before = fingerprint(file);
        self.ready_somewhere(file);
        let mut list = vec![0; 72];
        let readiness = reference::ready(file, &mut list);
        list.truncate(if readiness.number == 0 { readiness.place as usize } else { 0 });
        self.unchanged(before, file);
        (readiness, list)
    }

    fn ready_somewhere(&mut self, file: &[u8]) {
        let probe = reference::ready(file, &mut []);
        let probe = Answer { number: probe.number, place: probe.place };
        let room = self.lent_length(probe, file.len().min(72));
        self.ready_in(file, room);
    }

    /// Readiness with a list of `room` bytes: the answer, and all of those bytes.
    pub fn ready_in(&mut self, file: &[u8], room: usize) -> Readiness {
        let salt = self.random.u8();
        lay_pattern(&mut self.ours, room, salt);
        lay_pattern(&mut self.theirs, room, salt);
        let ours = library::ready(file, &mut self.ours[MARGIN..MARGIN + room]);
        let theirs = reference::ready(file, &mut self.theirs[MARGIN..MARGIN + room]);
        let written = if theirs.number == 0 { theirs.place as usize } else { 0 };
        if self.ours != self.theirs || !pattern_stands(&self.theirs, written, salt) {
            let what =
                format!("library {ours:?}\nreference {theirs:?}\nlent {room} bytes, which differ");
            self.fail("ready", &[file], &what);
        }
        self.answers.add(theirs.number);
        self.same("ready", &[file], ours, theirs)
    }

    /// Every call that takes a wrapper; the answer to `wrapper_check`.
    pub fn wrapper(&mut self, wrapper: &[u8]) -> Answer {
        self.inputs += 1;
        let before = fingerprint(wrapper);
        let (ours, theirs) = (library::wrapper_check(wrapper), reference::wrapper_check(wrapper));
        let answer = self.answer("wrapper_check", &[wrapper], ours, theirs);
        self.outputs(&WRAPPER_CALLS, wrapper);
        self.unchanged(before, wrapper);
        answer
    }

    /// Reads a message, and writes what was read: that gives its bytes again.
    pub fn message(&mut self, message: &[u8]) -> Reading {
        self.inputs += 1;
        let before = fingerprint(message);
        let ours = library::message_read(message);
        let reading = self.same("message_read", &[message], ours, reference::message_read(message));
        self.answers.add(reading.number);
        if reading.number == 0 {
            self.write_again(message, reading);
        }
        self.unchanged(before, message);
        reading
    }

    /// Writing what was read gives the message again.
    fn write_again(&mut self, message: &[u8], read: Reading) {
        let start = read.data_place as usize;
        let data = &message[start..start + read.data_length as usize];
        lay_pattern(&mut self.ours, message.len(), 0);
        let out = &mut self.ours[MARGIN..MARGIN + message.len()];
        let ours = library::message_write(read.tag, [read.a, read.b, read.c, read.d], data, out);
        let again = &*out == message && pattern_stands(&self.ours, message.len(), 0);
        let theirs = Answer { number: 0, place: message.len() as u64 };
        self.same("message_write of what was read", &[message], (ours, again), (theirs, true));
    }

    /// Writes a message; the answer, and what the output then holds.
    pub fn write_message(&mut self, tag: u32, numbers: [u64; 4], data: &[u8]) -> (Answer, &[u8]) {
        self.inputs += 1;
        let [a, b, c, d] = numbers;
        let before = fingerprint(data);
        let answer = self.output(
            "message_write",
            &[&tag.to_le_bytes(), &numbers.map(u64::to_le_bytes).concat(), data],
            |out| library::message_write(tag, numbers, data, out),
            |out| reference::message_write(tag, a, b, c, d, data, out),
        );
        self.unchanged(before, data);
        (answer, self.lent())
    }

    /// A call that answers a number and a place.
    pub(crate) fn answer<T: Answered>(
        &mut self,
        call: &str,
        inputs: &[&[u8]],
        ours: T,
        theirs: T,
    ) -> T {
        self.same(call, inputs, ours, theirs);
        self.answers.add(theirs.answer().number);
        theirs
    }

    /// What the library gave has to be what the reference gave.
    pub(crate) fn same<T: PartialEq + Debug>(
        &mut self,
        call: &str,
        inputs: &[&[u8]],
        ours: T,
        theirs: T,
    ) -> T {
        self.calls += 1;
        if ours != theirs {
            self.fail(call, inputs, &format!("library {ours:?}\nreference {theirs:?}"));
        }
        theirs
    }

    /// Each of the calls on one input.
    fn outputs(&mut self, calls: &[(&str, Call, Call)], input: &[u8]) {
        for (name, library, reference) in calls {
            self.output(name, &[input], |out| library(input, out), |out| reference(input, out));
        }
    }

    /// A call with lent memory, whose length is chosen about what the reference needs.
    pub(crate) fn output<T: Answered>(
        &mut self,
        call: &str,
        inputs: &[&[u8]],
        library: impl Fn(&mut [u8]) -> T,
        reference: impl Fn(&mut [u8]) -> T,
    ) -> T {
        let input = inputs.iter().map(|input| input.len()).sum();
        let length = self.lent_length(reference(&mut []).answer(), input);
        self.output_in(length, call, inputs, library, reference)
    }

    /// A call with lent memory of so many bytes.
    pub(crate) fn output_in<T: Answered>(
        &mut self,
        length: usize,
        call: &str,
        inputs: &[&[u8]],
        library: impl Fn(&mut [u8]) -> T,
        reference: impl Fn(&mut [u8]) -> T,
    ) -> T {
        let salt = self.random.u8();
        lay_pattern(&mut self.ours, length, salt);
        lay_pattern(&mut self.theirs, length, salt);
        let theirs = reference(&mut self.theirs[MARGIN..MARGIN + length]);
        let ours = library(&mut self.ours[MARGIN..MARGIN + length]);
        if self.ours != self.theirs {
            let at = (0..self.ours.len()).find(|at| self.ours[*at] != self.theirs[*at]);
            let place = at.unwrap_or(0) as i64 - MARGIN as i64;
            let what = format!(
                "library {ours:?}\nreference {theirs:?}\nlent {length} bytes, first difference at {place}"
            );
            self.fail(call, inputs, &what);
        }
        let answer = theirs.answer();
        let written = if answer.number == 0 { answer.place as usize } else { 0 };
        if !pattern_stands(&self.theirs, written, salt) {
            self.fail(
                call,
                inputs,
                &format!("both wrote beside their {written} bytes: {theirs:?}"),
            );
        }
        self.answer(call, inputs, ours, theirs)
    }

    /// An edit of a file in memory that holds the result, of which answer and bytes are told beforehand.
    pub fn told(
        &mut self,
        call: &str,
        file: &[u8],
        wanted: Answer,
        written: &[u8],
        library: impl Fn(&[u8], &mut [u8]) -> Answer,
    ) {
        self.inputs += 1;
        let before = fingerprint(file);
        let spare = if self.exact { 0 } else { self.random.below(3) * 20 };
        let length = written.len() + spare;
        let salt = self.random.u8();
        lay_pattern(&mut self.ours, length, salt);
        let ours = library(file, &mut self.ours[MARGIN..MARGIN + length]);
        self.answer(call, &[file], ours, wanted);
        if self.ours[MARGIN..MARGIN + written.len()] != *written {
            self.fail(call, &[file, written], "other bytes are written");
        }
        if !pattern_stands(&self.ours, written.len(), salt) {
            self.fail(call, &[file], &format!("written beside {} bytes", written.len()));
        }
        self.unchanged(before, file);
    }

    /// None, one too few, exactly enough, more, or anything, when `probe` was answered to none. Where the
    /// input itself is refused there is mostly room for a copy of it, so that a hasty writer shows.
    pub(crate) fn lent_length(&mut self, probe: Answer, input: usize) -> usize {
        let more = 1 + self.random.below(40);
        let needed = probe.place as usize;
        match (probe.number, self.exact) {
            (ROOM, true) => return needed,
            (ROOM, false) => {}
            (_, true) => return more,
            (_, false) => return self.random.pick(&[0, more, input + more, input + more]),
        }
        match self.random.below(16) {
            0 => 0,
            1 => self.random.below(needed),
            2..=4 => needed - 1,
            5..=10 => needed,
            _ => needed + more,
        }
    }

    /// The memory lent last, as it was left.
    pub(crate) fn lent(&self) -> &[u8] {
        &self.ours[MARGIN..self.ours.len() - MARGIN]
    }

    pub(crate) fn unchanged(&self, before: u64, input: &[u8]) {
        if before != fingerprint(input) {
            self.fail("some call", &[input], "the input was changed");
        }
    }

    /// Ends the run, and shows all that is needed to see the difference again.
    pub(crate) fn fail(&self, call: &str, inputs: &[&[u8]], what: &str) -> ! {
        let shown: Vec<String> = inputs.iter().map(|input| hex(input)).collect();
        panic!(
            "{} (seed {:#x}), input {}: {call}\n{what}\n{}",
            self.name,
            self.seed,
            self.inputs,
            shown.join("\n")
        );
    }
}

/// Bytes that no shift by less than 251 places leaves as they are.
fn pattern(salt: u8) -> [u8; 251] {
    std::array::from_fn(|at| (at as u8).wrapping_add(salt))
}

/// Lays the pattern over `length` bytes and a margin on both sides.
pub(crate) fn lay_pattern(memory: &mut Vec<u8>, length: usize, salt: u8) {
    let whole = length + 2 * MARGIN;
    memory.clear();
    memory.reserve(whole);
    let period = pattern(salt);
    while memory.len() < whole {
        let part = period.len().min(whole - memory.len());
        memory.extend_from_slice(&period[..part]);
    }
}

/// Whether the pattern stands in the margins and behind the written bytes.
pub(crate) fn pattern_stands(memory: &[u8], written: usize, salt: u8) -> bool {
    let period = pattern(salt);
    let mut at = 0;
    while at < memory.len() {
        if at == MARGIN {
            at += written;
        }
        let phase = at % period.len();
        let end = if at < MARGIN { MARGIN } else { memory.len() };
        let part = (period.len() - phase).min(end - at);
        if memory[at..at + part] != period[phase..phase + part] {
            return false;
        }
        at += part;
    }
    true
}

/// A number that changes with every byte of the input.
pub(crate) fn fingerprint(input: &[u8]) -> u64 {
    let mut words = input.chunks_exact(8);
    let mixed = words.by_ref().fold(input.len() as u64, |mixed, word| {
        let word = u64::from_le_bytes(word.try_into().expect("eight bytes"));
        (mixed.rotate_left(5) ^ word).wrapping_mul(0x9E37_79B9_7F4A_7C15)
    });
    words.remainder().iter().fold(mixed, |mixed, byte| {
        (mixed.rotate_left(5) ^ u64::from(*byte)).wrapping_mul(0x9E37_79B9_7F4A_7C15)
    })
}

fn hex(bytes: &[u8]) -> String {
    let shown: String = bytes.iter().take(SHOWN).map(|byte| format!("{byte:02X}")).collect();
    let more = if bytes.len() > SHOWN { " ..." } else { "" };
    format!("{} bytes: {shown}{more}", bytes.len())
}

/// The comparison itself can fail: each of these is what a faulty library would do.
#[cfg(test)]
mod tests {
    use super::*;

    const TAKEN: Answer = Answer { number: 0, place: 4 };
    const SHORT_OF_ROOM: Answer = Answer { number: ROOM, place: 4 };

    /// Writes four bytes if there is room for them.
    fn four(out: &mut [u8]) -> Answer {
        match out.get_mut(..4) {
            None => SHORT_OF_ROOM,
            Some(part) => {
                part.copy_from_slice(b"four");
                TAKEN
            }
        }
    }

    /// Compares calls of the library with `four`, until all lengths of output have come.
    fn against_four(library: impl Fn(&mut [u8]) -> Answer) {
        let mut run = Comparison::new("four", 1);
        for _ in 0..200 {
            run.output("four", &[b"input"], &library, four);
        }
    }

    #[test]
    fn the_same_is_taken() {
        against_four(four);
    }

    #[test]
    #[should_panic(expected = "first difference at 3")]
    fn another_byte() {
        against_four(|out| {
            let answer = four(out);
            out.iter_mut().skip(3).take(1).for_each(|byte| *byte = b'R');
            answer
        });
    }

    #[test]
    #[should_panic(expected = "first difference at 4")]
    fn a_byte_behind_the_written_ones() {
        against_four(|out| {
            let answer = four(out);
            out.iter_mut().skip(4).take(1).for_each(|byte| *byte ^= 1);
            answer
        });
    }

    #[test]
    #[should_panic(expected = "first difference at 0")]
    fn a_refusal_that_writes() {
        against_four(|out| {
            let answer = four(out);
            if answer == SHORT_OF_ROOM {
                out.iter_mut().for_each(|byte| *byte ^= 1);
            }
            answer
        });
    }

    #[test]
    #[should_panic(expected = "library Answer { number: 16, place: 3 }")]
    fn another_place() {
        against_four(|out| match four(out) {
            SHORT_OF_ROOM => Answer { number: ROOM, place: 3 },
            answer => answer,
        });
    }

    #[test]
    #[should_panic(expected = "both wrote beside their 4 bytes")]
    fn both_write_too_much() {
        let five = |out: &mut [u8]| {
            let answer = four(out);
            out.iter_mut().skip(4).take(1).for_each(|byte| *byte ^= 1);
            answer
        };
        let mut run = Comparison::new("five", 1);
        for _ in 0..200 {
            run.output("five", &[b"input"], five, five);
        }
    }

    /// Calls of the library against what is told of `four`, with and without memory behind its bytes.
    fn told_of_four(library: impl Fn(&mut [u8]) -> Answer) {
        let mut run = Comparison::new("told", 1);
        for _ in 0..20 {
            run.told("four", b"input", TAKEN, b"four", |_, out| library(out));
        }
    }

    #[test]
    fn what_is_told_is_taken() {
        told_of_four(four);
    }

    #[test]
    #[should_panic(expected = "other bytes are written")]
    fn another_byte_than_told() {
        told_of_four(|out| {
            let answer = four(out);
            out[3] = b'R';
            answer
        });
    }

    #[test]
    #[should_panic(expected = "written beside 4 bytes")]
    fn a_byte_behind_those_told() {
        told_of_four(|out| {
            let answer = four(out);
            out.iter_mut().skip(4).take(1).for_each(|byte| *byte ^= 1);
            answer
        });
    }

    #[test]
    #[should_panic(expected = "library Answer { number: 0, place: 3 }")]
    fn another_place_than_told() {
        told_of_four(|out| Answer { place: 3, ..four(out) });
    }

    #[test]
    #[should_panic(expected = "the input was changed")]
    fn an_input_that_changes() {
        let before = fingerprint(b"an input of some length");
        Comparison::new("changed", 1).unchanged(before, b"an input of some lengtH");
    }
}
