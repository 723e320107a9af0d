//! Ready to restore: panels with any part of what is needed, and panels that are damaged.

use differential::compare::Comparison;
use differential::damage::{extremes, set, several};
use differential::make::{self, DeviceKey, Made};
use reference::Readiness;

/// The devices of a panel that is ready, with the newer interrupt controller.
const NEEDED: [u32; 7] = [3, 4, 6, 13, 16, 17, 21];
/// The older one.
const OLDER: u32 = 2;

/// A wrapper with no controller.
const EMPTY: &[u8] = b"AERO\x01\x00\x00\x00DSKC\x01\x00\x00\x00\x00\x00\x00\x00";

/// A panel of these devices and disks, and of a section before, between and behind the lists, which count for nothing.
fn panel(devices: &[(DeviceKey, Vec<u8>)], disks: &[u32]) -> Made {
    let mut made = Made::file();
    made.section(6, 1, 0, |made| {
        made.raw(&[0xA5; 20]);
    });
    made.section(5, 1, 0, |made| {
        made.number(4, disks.len() as u64);
        for id in disks {
            made.disk(*id, &b"base"[..*id as usize % 5], b"");
        }
    });
    made.section(300, 4, 4, |made| {
        made.device((3, 1, 0), b"no device of the panel");
    });
    made.section(4, 1, 0, |made| {
        made.number(4, devices.len() as u64);
        for (key, payload) in devices {
            made.device(*key, payload);
        }
    });
    made.section(9, 1, 0, |made| {
        made.raw(b"");
    });
    made
}

/// A device of the id with version 1 and flags 0; that of id 6 is a wrapper.
fn device(id: u32) -> (DeviceKey, Vec<u8>) {
    ((id, 1, 0), if id == 6 { EMPTY.to_vec() } else { vec![7; id as usize % 4] })
}

/// What the library and the reference say, which has to be this list.
fn says(run: &mut Comparison, file: &[u8], missing: &[(u32, u32)]) {
    let (readiness, list) = run.ready(file);
    let wanted: Vec<u8> = missing
        .iter()
        .flat_map(|(part, id)| [part.to_le_bytes(), id.to_le_bytes()].concat())
        .collect();
    let yes = u32::from(missing.is_empty());
    assert_eq!(readiness, Readiness { number: 0, yes, place: wanted.len() as u64 });
    assert_eq!(list, wanted, "{missing:?}");
}

/// All subsets of the devices that are needed, of the older controller and of the disks 0 and 1, in three orders, with devices and disks that are
/// not needed beside them.
pub fn subsets(run: &mut Comparison) {
    let mut ids = NEEDED.to_vec();
    ids.push(OLDER);
    for chosen in 0..1 << ids.len() {
        for disks in 0..4u32 {
            let there: Vec<u32> =
                (0..ids.len()).filter(|at| chosen >> at & 1 == 1).map(|at| ids[at]).collect();
            let disks: Vec<u32> = (0..2).filter(|id| disks >> id & 1 == 1).collect();
            let met = |id: u32| there.contains(&id) || (id == 21 && there.contains(&OLDER));
            let mut missing: Vec<(u32, u32)> =
                NEEDED.into_iter().filter(|id| !met(*id)).map(|id| (1, id)).collect();
            missing.extend((0..2).filter(|id| !disks.contains(id)).map(|id| (2, id)));
            for order in 0..3 {
                let mut devices: Vec<_> = there.iter().map(|id| device(*id)).collect();
                let mut disks = disks.clone();
                if order > 0 {
                    // 0 and 1 are disks, and no devices; 3 and 21 are devices, and no disks.
                    devices.extend([0, 1, 5, 22, 256 * 17, u32::MAX].map(device));
                    disks.extend([2, 3, 21, 256, u32::MAX]);
                }
                if order == 2 {
                    run.random.shuffle(&mut devices);
                    run.random.shuffle(&mut disks);
                }
                says(run, &panel(&devices, &disks).bytes, &missing);
            }
        }
    }
}

/// Any version and flags will do, and several devices of an id; but id 6 is counted over all of them, also where each is a wrapper.
pub fn twice(run: &mut Comparison) {
    for id in NEEDED.into_iter().chain([OLDER]) {
        for (version, flags) in [(0, 0), (1, 1), (2, 0), (0, u16::MAX), (u16::MAX, 1)] {
            let mut devices: Vec<_> = NEEDED.map(device).to_vec();
            devices.push(((id, version, flags), device(id).1));
            run.random.shuffle(&mut devices);
            let missing: &[(u32, u32)] = if id == 6 { &[(1, 6)] } else { &[] };
            says(run, &panel(&devices, &[1, 0]).bytes, missing);
            // The other one alone.
            devices.retain(|(key, _)| key.0 != id || *key == (id, version, flags));
            says(run, &panel(&devices, &[0, 1]).bytes, &[]);
        }
    }
    for count in 2..20 {
        let mut devices: Vec<_> = NEEDED.map(device).to_vec();
        devices.extend((2..=count).map(|version| ((6, version, 0), EMPTY.to_vec())));
        says(run, &panel(&devices, &[0, 1]).bytes, &[(1, 6)]);
    }
    // Both controllers; and a panel with as many devices as there may be, the needed ones among them.
    let mut devices: Vec<_> = NEEDED.map(device).to_vec();
    devices.push(device(OLDER));
    says(run, &panel(&devices, &[0, 1]).bytes, &[]);
    devices.extend((100..100 + 4096 - devices.len() as u32).map(device));
    says(run, &panel(&devices, &[0, 1]).bytes, &[]);
    run.random.shuffle(&mut devices);
    says(run, &panel(&devices, &[0, 1]).bytes, &[]);
    devices.retain(|(key, _)| key.0 != 17);
    says(run, &panel(&devices, &(0..256).rev().collect::<Vec<u32>>()).bytes, &[(1, 17)]);
}

/// A ready panel whose wrapper is this.
fn with_wrapper(wrapper: &[u8]) -> Vec<u8> {
    let mut devices: Vec<_> = NEEDED.map(device).to_vec();
    devices[2].1 = wrapper.to_vec();
    panel(&devices, &[1, 0]).bytes
}

/// A wrapper that is cut, that has a byte changed or a number at its extremes, or that is any wrapper: 6 is missing exactly where the wrapper's own
/// check refuses it.
pub fn wrappers(run: &mut Comparison) {
    let mut made = Made::wrapper(3);
    made.controller(256, b"AHCP", &[1, 2, 3]).controller(250, b"IDE0", b"").controller(
        1,
        b"NVME",
        &[9],
    );
    let judge = |run: &mut Comparison, wrapper: &[u8]| {
        let refused = reference::wrapper_check(wrapper).number != 0;
        says(run, &with_wrapper(wrapper), if refused { &[(1, 6)] } else { &[] });
    };
    let whole = made.bytes.clone();
    for length in 0..=whole.len() {
        judge(run, &whole[..length]);
    }
    for place in 0..whole.len() {
        for change in 0..=255 {
            let mut wrapper = whole.clone();
            wrapper[place] ^= change;
            judge(run, &wrapper);
        }
    }
    for field in &made.fields {
        for value in extremes(*field, whole.len()) {
            let mut wrapper = whole.clone();
            set(&mut wrapper, *field, value);
            judge(run, &wrapper);
        }
    }
    for _ in 0..2000 {
        let wrapper = make::wrapper(&mut run.random).bytes;
        judge(run, &wrapper);
    }
    judge(run, &[EMPTY, b"left over"].concat());
}

/// Every length of the list, for every number of things that are missing.
pub fn rooms(run: &mut Comparison) {
    for there in 0..=NEEDED.len() {
        let devices: Vec<_> = NEEDED[..there].iter().map(|id| device(*id)).collect();
        for disks in [&[][..], &[0], &[0, 1]] {
            let file = panel(&devices, disks).bytes;
            let need = 8 * (NEEDED.len() - there + 2 - disks.len());
            for room in 0..=80 {
                run.inputs += 1;
                let readiness = run.ready_in(&file, room);
                let number = if room < need { 16 } else { 0 };
                assert_eq!((readiness.number, readiness.place), (number, need as u64));
            }
        }
    }
}

/// A ready panel with every byte changed, every length cut, every number at its extremes, and with several faults at once.
pub fn damaged(run: &mut Comparison) {
    let made = panel(&NEEDED.map(device), &[1, 0]);
    for length in 0..made.bytes.len() {
        run.ready(&made.bytes[..length]);
    }
    let mut file = made.bytes.clone();
    for place in 0..file.len() {
        for change in 1..=255 {
            file[place] ^= change;
            run.ready(&file);
            file[place] ^= change;
        }
    }
    for field in &made.fields {
        for value in extremes(*field, made.bytes.len()) {
            let mut file = made.bytes.clone();
            set(&mut file, *field, value);
            run.ready(&file);
        }
    }
    for _ in 0..20_000 {
        let faults = 1 + run.random.below(4);
        let file = several(&mut run.random, &made, faults);
        run.ready(&file);
    }
}

/// Files with any sections, most of them with devices and disks from among those that are needed.
pub fn any(run: &mut Comparison) {
    for _ in 0..40_000 {
        let mut ids: Vec<u32> =
            NEEDED.into_iter().chain([OLDER]).filter(|_| !run.random.once_in(4)).collect();
        run.random.shuffle(&mut ids);
        let devices: Vec<_> = ids
            .into_iter()
            .map(|id| ((id, make::small_id(&mut run.random), 0), device(id).1))
            .collect();
        let disks: Vec<u32> = (0..3).filter(|_| !run.random.once_in(4)).collect();
        let mut file = panel(&devices, &disks).bytes;
        if run.random.once_in(2) {
            // Sections of another file behind it: a list that comes again is TWICE.
            file.extend(&make::file(&mut run.random).bytes[16..]);
        }
        run.ready(&file);
    }
    for _ in 0..20_000 {
        let file = make::file(&mut run.random).bytes;
        run.ready(&file);
    }
}
