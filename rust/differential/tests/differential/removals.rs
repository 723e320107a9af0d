//! Removals and replacements: of entries that are there, of keys that differ in one field only, down to
//! the last entry of a list, and back and forth with adds.

use differential::compare::Comparison;
use differential::damage::several;
use differential::make::{self, DeviceKey};
use differential::random::Random;
use reference::answer::{ABSENT, ROOM};

/// The keys of a file's devices and the ids of its disks, by the reference; none of a file that is refused.
fn entries(file: &[u8]) -> (Vec<DeviceKey>, Vec<u32>) {
    let u32_at = |b: &[u8], at: usize| u32::from_le_bytes([b[at], b[at + 1], b[at + 2], b[at + 3]]);
    let u16_at = |b: &[u8], at: usize| u16::from_le_bytes([b[at], b[at + 1]]);
    let table = |call: fn(&[u8], &mut [u8]) -> reference::Answer| {
        let mut table = vec![0; 4096 * 32];
        let answer = call(file, &mut table);
        table.truncate(if answer.number == 0 { answer.place as usize } else { 0 });
        table
    };
    let devices = table(reference::devices);
    let disks = table(reference::disks);
    (
        devices.chunks(32).map(|r| (u32_at(r, 0), u16_at(r, 4), u16_at(r, 6))).collect(),
        disks.chunks(32).map(|r| u32_at(r, 0)).collect(),
    )
}

/// A key of the list, one that differs from such a key in one field, or any.
fn near(random: &mut Random, keys: &[DeviceKey]) -> DeviceKey {
    if keys.is_empty() || random.once_in(8) {
        return make::device_key(random);
    }
    let (id, version, flags) = random.pick(keys);
    match random.below(8) {
        0 => (id ^ 1, version, flags),
        1 => (id, version ^ 1, flags),
        2 => (id, version, flags ^ 1),
        3 => (id.swap_bytes(), version, flags),
        _ => (id, version, flags),
    }
}

fn near_id(random: &mut Random, ids: &[u32]) -> u32 {
    if ids.is_empty() || random.once_in(8) {
        return make::id(random);
    }
    let id = random.pick(ids);
    if random.once_in(4) {
        id ^ 1
    } else {
        id
    }
}

/// The file that a call gives, or the number of its refusal.
fn file_of((answer, out): (reference::Answer, &[u8])) -> Result<Vec<u8>, u32> {
    match answer.number {
        0 => Ok(out[..answer.place as usize].to_vec()),
        refusal => Err(refusal),
    }
}

/// The same, made again until there was room.
fn roomy(mut call: impl FnMut() -> Result<Vec<u8>, u32>) -> Result<Vec<u8>, u32> {
    loop {
        match call() {
            Err(ROOM) => {}
            result => return result,
        }
    }
}

fn canonical(file: &[u8]) -> Vec<u8> {
    let mut out = vec![0; file.len()];
    let answer = reference::canonical(file, &mut out);
    assert_eq!(answer.number, 0);
    out.truncate(answer.place as usize);
    out
}

/// Each of the three calls on valid and damaged files.
pub fn on_any_file(run: &mut Comparison) {
    for _ in 0..60_000 {
        let made = make::file(&mut run.random);
        let (keys, ids) = entries(&made.bytes);
        let faults = run.random.pick(&[0, 0, 0, 1, 2]);
        let file = several(&mut run.random, &made, faults);
        let key = near(&mut run.random, &keys);
        run.remove_device(&file, key);
        let id = near_id(&mut run.random, &ids);
        run.remove_disk(&file, id);
        let key = near(&mut run.random, &keys);
        let most = run.random.pick(&[1, 10, 10, 10, 2_000]);
        let length = run.random.below(most);
        let payload = run.random.bytes(length);
        run.replace_device(&file, key, &payload);
    }
}

/// All devices and disks of a file removed in some order, the only ones at last: what stays is the file
/// without these lists.
pub fn to_the_last(run: &mut Comparison) {
    for _ in 0..5_000 {
        let mut file = make::file(&mut run.random).bytes;
        let (mut keys, mut ids) = entries(&file);
        run.random.shuffle(&mut keys);
        run.random.shuffle(&mut ids);
        while let Some(key) = keys.pop() {
            file =
                roomy(|| file_of(run.remove_device(&file, key))).expect("a device that is there");
            assert_eq!(
                file_of(run.remove_device(&file, key)),
                Err(ABSENT),
                "a device that is gone"
            );
            if run.random.once_in(2) {
                if let Some(id) = ids.pop() {
                    file = roomy(|| file_of(run.remove_disk(&file, id))).expect("it is there");
                }
            }
        }
        while let Some(id) = ids.pop() {
            file = roomy(|| file_of(run.remove_disk(&file, id))).expect("a disk that is there");
            assert_eq!(file_of(run.remove_disk(&file, id)), Err(ABSENT), "a disk that is gone");
        }
        assert_eq!(entries(&file), (vec![], vec![]), "entries left: input {}", run.inputs);
        run.file(&file);
    }
}

/// Removing what was just added to a canonical file gives that file's bytes again.
pub fn undone(run: &mut Comparison) {
    for _ in 0..20_000 {
        let file = canonical(&make::file(&mut run.random).bytes);
        let key = make::device_key(&mut run.random);
        let length = run.random.below(40);
        let payload = run.random.bytes(length);
        if let Ok(more) = roomy(|| file_of(run.add_device(&file, key, &payload))) {
            let back = roomy(|| file_of(run.remove_device(&more, key)));
            assert!(back.as_ref() == Ok(&file), "device not undone: input {}", run.inputs);
        }
        let id = make::id(&mut run.random);
        if let Ok(more) = roomy(|| file_of(run.add_disk(&file, id, b"base", b"overlay"))) {
            let back = roomy(|| file_of(run.remove_disk(&more, id)));
            assert!(back.as_ref() == Ok(&file), "disk not undone: input {}", run.inputs);
        }
    }
}

/// Replacing twice is replacing once.
pub fn replaced_twice(run: &mut Comparison) {
    for _ in 0..20_000 {
        let file = make::file(&mut run.random).bytes;
        let (keys, _) = entries(&file);
        if keys.is_empty() {
            continue;
        }
        let key = run.random.pick(&keys);
        let [first, last] = [0; 2].map(|_| {
            let length = run.random.below(60);
            run.random.bytes(length)
        });
        let once = roomy(|| file_of(run.replace_device(&file, key, &last)));
        let between =
            roomy(|| file_of(run.replace_device(&file, key, &first))).expect("it is there");
        let twice = roomy(|| file_of(run.replace_device(&between, key, &last)));
        assert!(once.is_ok() && once == twice, "replaced twice: input {}", run.inputs);
    }
}
