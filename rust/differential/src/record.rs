//! Calls of the library written to a file, for the same calls elsewhere: `web/test` gives them to the library in WebAssembly.
//!
//! A run that was told to (`start`) records one input in [`EVERY`], in the order in which they are met: a file, a wrapper, a message or a region with
//! every call on it alone and every edit of it; of all else (rings, fields, messages to write) a call with its numbers is an input. A call is made once
//! more for it, into memory of the recorder's own.
//!
//! A record, all numbers with the low byte first: a byte, 1 where the input is another one than before; the length of the call's name in a byte, and the name; what
//! is given, in the order of the header: a number as 8 bytes, bytes behind their length in 4 (0xFFFF_FFFF: the first bytes of the record before), a lent output as its
//! length in 4 bytes and the salt of its pattern in one; the fields of the answer, 8 bytes each; then what was written. For an output these are as many bytes as the
//! answer says, if it is taken. For bytes changed in place: where the change starts and how many bytes it has, 4 bytes each, and these bytes. The last record is the
//! byte 0xFF with the number of inputs and of calls. Of two outputs each has its length and its salt, and what was written stands in their order.

use std::fs::File;
use std::io::{BufWriter, Write};
use std::path::Path;
use std::sync::atomic::{AtomicBool, Ordering};
use std::sync::{Mutex, OnceLock};

use reference::{Access, Answer, Cursors, Edited, Pair, Readiness, Reading, Record, Salvaged};

use crate::edits::numbers;

/// One input in so many is recorded.
const EVERY: u64 = 16;
/// Inputs and outputs longer than this are not recorded.
const LONGEST: usize = 1 << 17;
const SAME: u32 = u32::MAX;

/// What a call is given, but for what is lent.
pub enum Given<'a> {
    Bytes(&'a [u8]),
    Number(u64),
}

pub use Given::{Bytes, Number};

/// A number of any width.
pub fn number<'a>(number: impl Into<u64>) -> Given<'a> {
    Number(number.into())
}

/// What calls answer, as numbers in the order of the header's structs.
pub trait Fields {
    fn fields(&self) -> Vec<u64>;
}

macro_rules! fields {
    ($($answered:ty: $($field:ident)*;)*) => {
        $(impl Fields for $answered {
            fn fields(&self) -> Vec<u64> {
                vec![$(low_bits(self.$field)),*]
            }
        })*
    };
}

fields! {
    Answer: number place;
    Reading: number place tag a b c d data_place data_length;
    Cursors: number place head reserve commit;
    Pair: number place start end;
    Record: number place payload_place payload_length;
    Readiness: number yes place;
    Salvaged: number place losses;
    Access: kind level present long_mode size granularity unusable rest;
}

impl Fields for Edited {
    fn fields(&self) -> Vec<u64> {
        let answer = [self.number.into(), self.index.into(), self.place];
        [&answer[..], &numbers(self.card)].concat()
    }
}

/// What calls answer that write to lent memory.
pub trait Written: Fields {
    /// The bytes written.
    fn written(&self) -> usize;
}

macro_rules! written {
    ($($answered:ty)*) => {
        $(impl Written for $answered {
            fn written(&self) -> usize {
                if self.number == 0 { self.place as usize } else { 0 }
            }
        })*
    };
}

written!(Answer Edited Readiness);

/// A number of up to 64 bits, or the 32 bits of a signed one.
fn low_bits(number: impl TryInto<u64> + TryInto<i32> + Copy) -> u64 {
    let signed = || TryInto::<i32>::try_into(number).map_or(0, |signed| u64::from(signed as u32));
    TryInto::<u64>::try_into(number).unwrap_or_else(|_| signed())
}

struct Recorder {
    file: BufWriter<File>,
    /// The first bytes of the last call, recorded or not.
    last: Vec<u8>,
    /// The first bytes of the last record.
    recorded: Option<Vec<u8>>,
    /// How many inputs there were, and how many of them and of the calls are recorded.
    met: u64,
    inputs: u64,
    calls: u64,
}

static RECORDER: OnceLock<Mutex<Recorder>> = OnceLock::new();

/// Whether calls are made that are not inputs of their own.
static ASIDE: AtomicBool = AtomicBool::new(false);

/// Calls that only look at what another one answered, and are not recorded.
pub fn aside<T>(calls: impl FnOnce() -> T) -> T {
    ASIDE.store(true, Ordering::Relaxed);
    let answered = calls();
    ASIDE.store(false, Ordering::Relaxed);
    answered
}

/// Records from now on.
pub fn start(path: &Path) {
    let file = File::create(path).expect("the file of answers can be made");
    let recorder = Recorder {
        file: BufWriter::new(file),
        last: vec![],
        recorded: None,
        met: 0,
        inputs: 0,
        calls: 0,
    };
    assert!(RECORDER.set(Mutex::new(recorder)).is_ok(), "recording was started before");
}

/// The file's end. What is recorded, by inputs and calls; none if nothing was started.
pub fn finish() -> Option<(u64, u64)> {
    let mut recorder = RECORDER.get()?.lock().unwrap();
    let (inputs, calls) = (recorder.inputs, recorder.calls);
    let end = [&[0xFF], &inputs.to_le_bytes()[..], &calls.to_le_bytes()].concat();
    recorder.file.write_all(&end).and_then(|()| recorder.file.flush()).expect("answers are stored");
    Some((inputs, calls))
}

/// A call that only looks.
pub fn looks<T: Fields>(name: &str, given: &[Given], call: impl Fn() -> T) -> T {
    let answer = call();
    if let Some(recorder) = RECORDER.get() {
        recorder.lock().unwrap().record(name, given, 0, || (answer.fields(), vec![]), &[]);
    }
    answer
}

/// A call that writes to lent memory, its last argument.
pub fn writes<T: Written>(
    name: &str,
    given: &[Given],
    out: &mut [u8],
    call: impl Fn(&mut [u8]) -> T,
) -> T {
    if let Some(recorder) = RECORDER.get() {
        let mut recorder = recorder.lock().unwrap();
        let salt = recorder.calls as u8;
        let mut lent = (out.len() as u32).to_le_bytes().to_vec();
        lent.push(salt);
        let again = || {
            let mut own = pattern(out.len(), salt);
            let answer = call(&mut own);
            let written = answer.written();
            assert!(own[written..] == pattern(out.len(), salt)[written..], "{name} wrote too much");
            (answer.fields(), own[..written].to_vec())
        };
        recorder.record(name, given, out.len(), again, &lent);
    }
    call(out)
}

/// Salvage, which writes to two lent outputs: the file's, and 24 bytes for each loss.
pub fn salvages(
    file: &[u8],
    out: &mut [u8],
    losses: &mut [u8],
    call: impl Fn(&mut [u8], &mut [u8]) -> Salvaged,
) -> Salvaged {
    if let Some(recorder) = RECORDER.get() {
        let mut recorder = recorder.lock().unwrap();
        let salt = recorder.calls as u8;
        let lengths = [out.len(), losses.len()];
        let lent = lengths.map(|length| [&(length as u32).to_le_bytes()[..], &[salt]].concat());
        let again = || {
            let mut own = lengths.map(|length| pattern(length, salt));
            let [out, losses] = &mut own;
            let answer = call(out, losses);
            let kept = if answer.number == 0 { answer.place as usize } else { 0 };
            let written = [kept, 24 * answer.losses as usize];
            for ((own, length), written) in own.iter().zip(lengths).zip(written) {
                let before = pattern(length, salt);
                assert!(own[written..] == before[written..], "salvage wrote too much");
            }
            (answer.fields(), [&own[0][..written[0]], &own[1][..written[1]]].concat())
        };
        let longest = lengths[0].max(lengths[1]);
        recorder.record("salvage", &[Bytes(file)], longest, again, &lent.concat());
    }
    call(out, losses)
}

/// A call that changes its first argument in place; `given` are the others.
pub fn changes<T: Fields>(
    name: &str,
    region: &mut [u8],
    given: &[Given],
    call: impl Fn(&mut [u8]) -> T,
) -> T {
    if let Some(recorder) = RECORDER.get() {
        let mut all = vec![Bytes(region)];
        all.extend(given.iter().map(|one| match one {
            Bytes(bytes) => Bytes(bytes),
            Number(number) => Number(*number),
        }));
        let again = || {
            let mut own = region.to_vec();
            let fields = call(&mut own).fields();
            (fields, difference(region, &own))
        };
        recorder.lock().unwrap().record(name, &all, 0, again, &[]);
    }
    call(region)
}

/// The bytes that lent memory holds before a call.
fn pattern(length: usize, salt: u8) -> Vec<u8> {
    (0..length).map(|at| (at as u8).wrapping_mul(31).wrapping_add(salt)).collect()
}

/// From the first byte that differs to the last, behind where that is and how many they are.
fn difference(before: &[u8], after: &[u8]) -> Vec<u8> {
    let differs = |at: &usize| before[*at] != after[*at];
    let from = (0..before.len()).find(differs).unwrap_or(0);
    let to = (0..before.len()).rev().find(differs).map_or(0, |last| last + 1);
    let numbers = [from as u32, (to - from) as u32].map(u32::to_le_bytes);
    [numbers.as_flattened(), &after[from..to]].concat()
}

impl Recorder {
    /// Records a call, if its input is one of those that are: `again` makes it, and says what was answered and written.
    fn record(
        &mut self,
        name: &str,
        given: &[Given],
        lent: usize,
        again: impl FnOnce() -> (Vec<u64>, Vec<u8>),
        lent_as: &[u8],
    ) {
        if ASIDE.load(Ordering::Relaxed) {
            return;
        }
        let bytes = || {
            given.iter().filter_map(|one| match one {
                Bytes(bytes) => Some(*bytes),
                Number(_) => None,
            })
        };
        let first = bytes().next().unwrap_or(&[]);
        let longest = bytes().map(<[u8]>::len).fold(lent, usize::max);
        // Files and wrappers have many calls each; of all else each call is an input of its own.
        let edits = name.ends_with("_device") || name.ends_with("_disk") || name == "add_devices";
        let many = edits || matches!(given, [Bytes(_)]);
        let new = !many || first != self.last.as_slice();
        if new {
            self.met += 1;
            self.last = first.to_vec();
        }
        if !self.met.is_multiple_of(EVERY) || longest > LONGEST {
            return;
        }
        let same = self.recorded.as_deref() == Some(first);
        let counted = new || !same;
        let mut record = vec![u8::from(counted), name.len() as u8];
        record.extend(name.as_bytes());
        let mut is_first = true;
        for one in given {
            match one {
                Number(number) => record.extend(number.to_le_bytes()),
                Bytes(_) if is_first && same => record.extend(SAME.to_le_bytes()),
                Bytes(bytes) => {
                    record.extend((bytes.len() as u32).to_le_bytes());
                    record.extend(*bytes);
                }
            }
            is_first &= matches!(one, Number(_));
        }
        record.extend(lent_as);
        let (fields, written) = again();
        fields.iter().for_each(|field| record.extend(field.to_le_bytes()));
        record.extend(written);
        self.file.write_all(&record).expect("an answer is stored");
        self.recorded = Some(first.to_vec());
        self.inputs += u64::from(counted);
        self.calls += 1;
    }
}
