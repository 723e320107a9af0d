//! Adding: chains in several orders that end in the same bytes, and single adds to any file.

use differential::compare::Comparison;
use differential::damage::several;
use differential::make::{self, DeviceKey};
use differential::random::Random;
use differential::text;

const ROOM: u32 = 16;
const HAVE: u32 = 17;

/// What is added.
#[derive(Clone)]
enum New {
    Device(DeviceKey, Vec<u8>),
    Disk(u32, Vec<u8>, Vec<u8>),
}

fn new(random: &mut Random, broken: usize) -> New {
    if random.once_in(2) {
        let most = random.pick(&[10, 10, 10, 2_000]);
        let length = random.below(most);
        New::Device(make::device_key(random), random.bytes(length))
    } else {
        let [base, overlay] = [0; 2].map(|_| text::either(random, 5, broken));
        New::Disk(make::id(random), base, overlay)
    }
}

/// One add; the file that it gives, or the number of its refusal.
fn add(run: &mut Comparison, file: &[u8], new: &New) -> Result<Vec<u8>, u32> {
    let (answer, out) = match new {
        New::Device(key, payload) => run.add_device(file, *key, payload),
        New::Disk(id, base, overlay) => run.add_disk(file, *id, base, overlay),
    };
    match answer.number {
        0 => Ok(out[..answer.place as usize].to_vec()),
        refusal => Err(refusal),
    }
}

/// One add, with enough room in the end.
fn add_roomy(run: &mut Comparison, file: &[u8], new: &New) -> Result<Vec<u8>, u32> {
    loop {
        match add(run, file, new) {
            Err(ROOM) => {}
            result => return result,
        }
    }
}

/// From one file, a set of new entries in three orders: all refused, or all the same bytes, which are
/// their own canonical form.
pub fn chains(run: &mut Comparison) {
    for _ in 0..15_000 {
        let file = make::file(&mut run.random).bytes;
        let mut set = vec![];
        for _ in 0..1 + run.random.below(5) {
            set.push(new(&mut run.random, usize::MAX));
        }
        let first = chain(run, &file, &set);
        for _ in 0..2 {
            run.random.shuffle(&mut set);
            assert!(
                chain(run, &file, &set) == first,
                "another order, other bytes: input {}",
                run.inputs
            );
        }
        if let Ok(last) = first {
            run.file(&last);
            let mut again = vec![0; last.len()];
            let answer = reference::canonical(&last, &mut again);
            assert!(answer.number == 0 && again == last, "not canonical: input {}", run.inputs);
        }
    }
}

/// Adds all of the set, one after the other.
fn chain(run: &mut Comparison, file: &[u8], set: &[New]) -> Result<Vec<u8>, u32> {
    let mut file = file.to_vec();
    for new in set {
        file = add_roomy(run, &file, new)?;
        if run.random.once_in(8) {
            assert_eq!(add(run, &file, new), Err(HAVE), "an entry that was added");
        }
    }
    Ok(file)
}

/// Entries with good and broken texts added to valid and damaged files.
pub fn to_any_file(run: &mut Comparison) {
    for _ in 0..150_000 {
        let made = make::file(&mut run.random);
        let faults = run.random.pick(&[0, 0, 0, 1, 2]);
        let file = several(&mut run.random, &made, faults);
        let new = new(&mut run.random, 3);
        let _compared = add(run, &file, &new);
    }
}
