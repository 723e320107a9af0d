//! The examples of document 01 on snapshots and wrappers, through the wrapper's types.

use cimbrolau::snapshot::{self, Device, Disk, NewDevice, Section};
use cimbrolau::{wrapper, Card, Kind, Refusal, RefusedEntry, Snapshot};

/// P4: two devices, saved in descending order of their keys.
const TWO_DEVICES: &[u8] = b"AEROSNAP\x01\0\x01\0\0\0\0\0\
    \x04\0\0\0\x01\0\0\0\x27\0\0\0\0\0\0\0\
    \x02\0\0\0\
    \x0E\0\0\0\x01\0\0\0\x01\0\0\0\0\0\0\0\x11\
    \x03\0\0\0\x01\0\0\0\x02\0\0\0\0\0\0\0\xAB\xCD";

fn refused<T>(kind: Kind, place: u64) -> Result<T, Refusal> {
    Err(Refusal { kind, place })
}

fn changed(at: usize, to: u8) -> Vec<u8> {
    let mut file = TWO_DEVICES.to_vec();
    file[at] = to;
    file
}

#[test]
fn p1_to_p3_headers() {
    assert_eq!(snapshot::check(&snapshot::EMPTY), Ok(()));
    assert_eq!(snapshot::sections(&snapshot::EMPTY), Ok(vec![]));
    assert_eq!(snapshot::check(&snapshot::EMPTY[..15]), refused(Kind::Short, 0));
    assert_eq!(snapshot::check(&changed(10, 2)), refused(Kind::Endian, 10));
}

#[test]
fn p4_and_p5_tables_and_canonical_form() {
    let section = Section { id: 4, version: 1, flags: 0, offset: 32, length: 39, position: 0 };
    let three = Device { id: 3, version: 1, flags: 0, offset: 69, length: 2, position: 1 };
    let fourteen = Device { id: 14, version: 1, flags: 0, offset: 52, length: 1, position: 0 };
    assert_eq!(snapshot::sections(TWO_DEVICES), Ok(vec![section]));
    assert_eq!(snapshot::devices(TWO_DEVICES), Ok(vec![three, fourteen]));
    assert_eq!(snapshot::disks(TWO_DEVICES), Ok(vec![]));

    let canonical = snapshot::canonical(TWO_DEVICES).unwrap();
    let moved = [
        Device { offset: 52, position: 0, ..three },
        Device { offset: 70, position: 1, ..fourteen },
    ];
    assert_eq!(snapshot::devices(&canonical), Ok(moved.to_vec()));
    assert_eq!(snapshot::canonical(&canonical), Ok(canonical));
}

#[test]
fn p6_to_p9_refusals_and_empty_lists() {
    assert_eq!(snapshot::check(&changed(36, 3)), refused(Kind::Key, 53));
    let canonical = snapshot::canonical(TWO_DEVICES).unwrap();
    let card = snapshot::open(&canonical).unwrap();
    assert_eq!(snapshot::add_device(&canonical, card, (3, 1, 0), b""), refused(Kind::Have, 0));
    assert_eq!(snapshot::check(&changed(24, 40)), refused(Kind::Cut, 16));

    let mut none = TWO_DEVICES[..36].to_vec();
    none[24] = 4;
    none[32] = 0;
    assert_eq!(snapshot::canonical(&none).as_deref(), Ok(&snapshot::EMPTY[..]));
}

#[test]
fn adds_in_any_order_end_in_the_same_bytes() {
    let tank = |panel: &mut Snapshot| panel.add_device((3, 1, 0), &[15, 0]).unwrap();
    let pump = |panel: &mut Snapshot| panel.add_device((14, 1, 0), &[0x11]).unwrap();
    let disk = |panel: &mut Snapshot| panel.add_disk(7, b"base.img", b"night.img").unwrap();
    let after = |adds: [&dyn Fn(&mut Snapshot); 3]| {
        let mut panel = Snapshot::empty();
        adds.iter().for_each(|add| add(&mut panel));
        panel
    };
    let panel = after([&disk, &pump, &tank]);
    assert_eq!(after([&tank, &pump, &disk]), panel);
    assert_eq!(after([&tank, &disk, &pump]), panel);
    let file = panel.bytes();
    assert_eq!(snapshot::devices(file).unwrap().len(), 2);
    let seven = Disk { id: 7, base_offset: 99, base_length: 8, overlay_length: 9, position: 0 };
    assert_eq!(snapshot::disks(file), Ok(vec![seven]));
    assert_eq!((seven.base(file), seven.overlay(file)), (Some("base.img"), Some("night.img")));
    assert_eq!(panel.card(), Card { length: 120, sections: 2, devices: 2, payloads: 3 });
}

#[test]
fn a_snapshot_stays_true_through_every_edit() {
    let mut panel = Snapshot::open(TWO_DEVICES).unwrap();
    assert_eq!(panel.card(), Card { length: 71, sections: 1, devices: 2, payloads: 3 });
    let is_true = |panel: &Snapshot| assert_eq!(snapshot::open(panel.bytes()), Ok(panel.card()));
    panel.replace_device((14, 1, 0), &[1, 2, 3, 4]).unwrap();
    is_true(&panel);
    panel.add_disk(1, b"base.img", b"").unwrap();
    is_true(&panel);
    let before = (panel.bytes().to_vec(), panel.card());
    assert_eq!(panel.add_disk(2, b"\xFF", b""), refused(Kind::Text, 0));
    assert_eq!(panel.remove_disk(2), refused(Kind::Absent, 0));
    assert_eq!((panel.bytes().to_vec(), panel.card()), before);
    panel.remove_device((3, 1, 0)).unwrap();
    is_true(&panel);
    panel.remove_device((14, 1, 0)).unwrap();
    is_true(&panel);
    panel.remove_disk(1).unwrap();
    assert_eq!(panel, Snapshot::empty());
    assert_eq!(Snapshot::open(&TWO_DEVICES[..70]), refused(Kind::Cut, 16));
}

#[test]
fn beside_an_untrue_card_the_bytes_are_the_same_or_the_edit_is_card() {
    let card = snapshot::open(TWO_DEVICES).unwrap();
    let edit = |card| snapshot::add_device(TWO_DEVICES, card, (9, 1, 0), &[7; 5]);
    let (file, moved) = edit(card).unwrap();
    assert_eq!(moved, Card { length: 92, sections: 1, devices: 3, payloads: 8 });
    // Any card within its bounds moves by as much.
    let (other, far) = edit(Card { length: 1000, sections: 64, devices: 0, payloads: 0 }).unwrap();
    assert_eq!((other, far), (file, Card { length: 1021, sections: 64, devices: 1, payloads: 5 }));
    let untrue = [
        Card { length: (1024 << 20) - 20, ..card },
        Card { length: u64::MAX, ..card },
        Card { sections: 65, ..card },
        Card { devices: 4096, ..card },
        Card { payloads: (256 << 20) - 4, ..card },
        Card { payloads: u64::MAX - 2, ..card },
    ];
    for card in untrue {
        assert_eq!(edit(card), refused(Kind::Card, 0), "{card:?}");
    }
    // A removal from a card that has too little: nothing stops at 0.
    let removed = snapshot::remove_device(TWO_DEVICES, Card { payloads: 1, ..card }, (3, 1, 0));
    assert_eq!(removed, refused(Kind::Card, 0));
    let removed = snapshot::remove_device(TWO_DEVICES, Card { length: 33, ..card }, (3, 1, 0));
    assert_eq!(removed, refused(Kind::Card, 0));
}

fn new(id: u32, place: u64, length: u64) -> NewDevice {
    NewDevice { id, version: 1, flags: 0, place, length }
}

#[test]
fn many_devices_at_once_are_as_one_by_one() {
    let store: Vec<u8> = (0..100).collect();
    let devices: Vec<NewDevice> =
        (0..20).map(|id| new(20 + 7 * id % 20, u64::from(id), u64::from(id % 9))).collect();
    let mut at_once = Snapshot::open(TWO_DEVICES).unwrap();
    at_once.add_devices(&devices, &store).unwrap();
    let mut one_by_one = Snapshot::open(TWO_DEVICES).unwrap();
    for device in devices.iter().rev() {
        let part = &store[device.place as usize..][..device.length as usize];
        one_by_one.add_device((device.id, device.version, device.flags), part).unwrap();
    }
    assert_eq!(at_once, one_by_one);
    assert_eq!(snapshot::open(at_once.bytes()), Ok(at_once.card()));
    at_once.add_devices(&[], &[]).unwrap();
    assert_eq!(at_once, one_by_one);
}

#[test]
fn a_refused_entry_is_named_and_none_is_added() {
    let mut panel = Snapshot::open(TWO_DEVICES).unwrap();
    let told = |index, kind| Err(RefusedEntry { index, refusal: Refusal { kind, place: 0 } });
    let store = [7; 10];
    assert_eq!(panel.add_devices(&[new(4, 0, 10), new(3, 0, 1)], &store), told(1, Kind::Have));
    assert_eq!(panel.add_devices(&[new(4, 0, 10), new(5, 10, 1)], &store), told(1, Kind::Payload));
    let far = new(5, u64::MAX, u64::MAX);
    assert_eq!(panel.add_devices(&[new(4, 0, 10), far], &store), told(1, Kind::Payload));
    let many: Vec<NewDevice> = (0..4097).map(|id| new(100 + id, 10, 0)).collect();
    assert_eq!(panel.add_devices(&many, &store), told(4094, Kind::Limit));
    assert_eq!(panel, Snapshot::open(TWO_DEVICES).unwrap());
    let card = Card { devices: 4095, ..panel.card() };
    let edited = snapshot::add_devices(TWO_DEVICES, card, &many[..2], &store);
    assert_eq!(edited.map(|_| ()), told(0, Kind::Card));
    let edited = snapshot::add_devices(&TWO_DEVICES[..15], card, &many, &store);
    assert_eq!(edited.map(|_| ()), told(0, Kind::Short));
}

/// One part of the store many times over: the output is longer than all that goes in.
#[test]
fn payloads_may_overlap() {
    let store = vec![0x5A; 100_000];
    let devices: Vec<NewDevice> = (0..200).map(|id| new(100 + id, 0, 100_000)).collect();
    let mut panel = Snapshot::empty();
    panel.add_devices(&devices, &store).unwrap();
    assert_eq!((panel.card().devices, panel.card().payloads), (200, 20_000_000));
    let devices: Vec<NewDevice> = (0..4096).map(|id| new(100 + id, 0, 100_000)).collect();
    let limit = (256 << 20) / 100_016;
    let refused = Snapshot::empty().add_devices(&devices, &store).unwrap_err();
    assert_eq!((refused.index, refused.refusal.kind), (limit, Kind::Limit));
}

#[test]
fn a_part_is_not_taken_from_another_file() {
    let device = snapshot::devices(TWO_DEVICES).unwrap()[0];
    assert_eq!(device.payload(TWO_DEVICES), Some(&[0xAB, 0xCD][..]));
    assert_eq!(device.payload(&TWO_DEVICES[..70]), None);
    let disk =
        Disk { id: 0, base_offset: u64::MAX, base_length: 9, overlay_length: 9, position: 0 };
    assert_eq!((disk.base(TWO_DEVICES), disk.overlay(TWO_DEVICES)), (None, None));
}

#[test]
fn p13_addresses() {
    let mut file = wrapper::EMPTY.to_vec();
    file[16] = 2;
    file.extend(b"\x00\x01\0\0NVME\x01\0\0\0\x07");
    file.extend(b"\xFA\x00\0\0SATA\0\0\0\0");
    let found = wrapper::controllers(&file).unwrap();
    let parts = |i: usize| (found[i].bus(), found[i].device(), found[i].function());
    assert_eq!((found[0].address, parts(0)), (250, (0, 31, 2)));
    assert_eq!((found[1].address, parts(1)), (256, (1, 0, 0)));
    let canonical = wrapper::canonical(&file).unwrap();
    assert_eq!(wrapper::canonical(&canonical), Ok(canonical.clone()));
    assert_eq!(&canonical[20..22], b"\xFA\x00");
    file[22] = 1;
    assert_eq!(wrapper::check(&file), refused(Kind::Reserved, 22));
}
