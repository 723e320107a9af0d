//! Valid files and wrappers, made field by field; the places of the fields are kept for `damage`.

use std::collections::BTreeSet;

use crate::random::Random;
use crate::text;

/// Where a number stands, and how many bytes it has.
#[derive(Clone, Copy, Debug)]
pub struct Field {
    pub place: usize,
    pub width: usize,
}

/// Bytes, and the numbers in them.
#[derive(Clone, Default)]
pub struct Made {
    pub bytes: Vec<u8>,
    pub fields: Vec<Field>,
}

impl Made {
    /// A file with no section yet.
    pub fn file() -> Self {
        let mut made = Made::default();
        made.raw(b"AEROSNAP").number(2, 1).number(1, 1).number(1, 0).number(4, 0);
        made
    }

    /// A wrapper of so many controllers, which follow.
    pub fn wrapper(count: u32) -> Self {
        let mut made = Made::default();
        made.raw(b"AERO").number(2, 1).number(2, 0);
        made.raw(b"DSKC").number(2, 1).number(2, 0);
        made.number(4, u64::from(count));
        made
    }

    pub fn raw(&mut self, bytes: &[u8]) -> &mut Self {
        self.bytes.extend_from_slice(bytes);
        self
    }

    /// A little-endian number of `width` bytes.
    pub fn number(&mut self, width: usize, value: u64) -> &mut Self {
        self.fields.push(Field { place: self.bytes.len(), width });
        self.raw(&value.to_le_bytes()[..width])
    }

    /// A length of `width` bytes and so many bytes.
    pub fn sized(&mut self, width: usize, bytes: &[u8]) -> &mut Self {
        self.number(width, bytes.len() as u64).raw(bytes)
    }

    /// A section; its length is that of what `payload` makes.
    pub fn section(
        &mut self,
        id: u32,
        version: u16,
        flags: u16,
        payload: impl FnOnce(&mut Made),
    ) -> &mut Self {
        self.number(4, u64::from(id)).number(2, u64::from(version)).number(2, u64::from(flags));
        let length_place = self.bytes.len();
        self.number(8, 0);
        let start = self.bytes.len();
        payload(self);
        let length = (self.bytes.len() - start) as u64;
        self.bytes[length_place..start].copy_from_slice(&length.to_le_bytes());
        self
    }

    pub fn device(&mut self, (id, version, flags): DeviceKey, payload: &[u8]) -> &mut Self {
        self.number(4, u64::from(id)).number(2, u64::from(version)).number(2, u64::from(flags));
        self.sized(8, payload)
    }

    pub fn disk(&mut self, id: u32, base: &[u8], overlay: &[u8]) -> &mut Self {
        self.number(4, u64::from(id)).sized(4, base).sized(4, overlay)
    }

    pub fn cpu(&mut self, apic: u32, state: &[u8], blob: &[u8]) -> &mut Self {
        self.number(4, u64::from(apic)).number(4, state.len() as u64);
        self.cpu_state(state).sized(8, blob)
    }

    pub fn mmu(&mut self, apic: u32, state: &[u8]) -> &mut Self {
        self.number(4, u64::from(apic)).raw(state)
    }

    pub fn controller(&mut self, address: u16, tag: &[u8; 4], payload: &[u8]) -> &mut Self {
        self.number(2, u64::from(address)).number(2, 0).raw(tag).sized(4, payload)
    }

    /// A CPU state, whose listed bytes are kept as fields.
    pub fn cpu_state(&mut self, state: &[u8]) -> &mut Self {
        let start = self.bytes.len();
        for (at, width) in LISTED {
            if at + width <= state.len() {
                self.fields.push(Field { place: start + at, width });
            }
        }
        self.raw(state)
    }
}

/// Where a version 2 state has listed numbers.
const LISTED: [(usize, usize); 7] =
    [(144, 1), (145, 1), (260, 1), (1183, 4), (1187, 1), (1188, 1), (1189, 1)];

pub type DeviceKey = (u32, u16, u16);

/// Numbers whose order as stored bytes differs from their order as numbers, and the largest ones.
const IDS: [u32; 12] =
    [0, 1, 2, 3, 255, 256, 257, 0xFFFF, 0x1_0000, 0x0100_0000, 0x8000_0000, u32::MAX];

pub fn id(random: &mut Random) -> u32 {
    if random.once_in(4) {
        random.u32()
    } else {
        random.pick(&IDS)
    }
}

pub fn small_id(random: &mut Random) -> u16 {
    random.pick(&[0, 1, 2, 255, 256, 257, 0x8000, u16::MAX])
}

pub fn device_key(random: &mut Random) -> DeviceKey {
    (random.pick(&IDS), small_id(random), small_id(random))
}

/// A new device of a table: its key, and the place and the length of its payload in the second buffer.
pub type New = (DeviceKey, u64, u64);

/// The table of new devices, 24 bytes each.
pub fn table(entries: &[New]) -> Vec<u8> {
    let mut made = Made::default();
    for ((id, version, flags), place, length) in entries {
        made.number(4, u64::from(*id)).number(2, u64::from(*version)).number(2, u64::from(*flags));
        made.number(8, *place).number(8, *length);
    }
    made.bytes
}

/// Up to `most` distinct keys in random order.
pub fn distinct<K: Ord>(
    random: &mut Random,
    most: usize,
    mut key: impl FnMut(&mut Random) -> K,
) -> Vec<K> {
    let count = random.below(most + 1);
    let mut keys: Vec<K> =
        (0..count).map(|_| key(random)).collect::<BTreeSet<K>>().into_iter().collect();
    random.shuffle(&mut keys);
    keys
}

/// A valid CPU state. In version 2 the listed bytes have values at their edges; some extended ones are longer.
pub fn any_cpu_state(random: &mut Random, version: u16, extended: bool) -> Vec<u8> {
    let mut state = cpu_state(random, version, extended);
    if version == 2 && extended && random.once_in(4) {
        let more = 1 + random.below(40);
        state.extend(random.bytes(more));
        let says = state.len() as u32 - 1187;
        state[1183..1187].copy_from_slice(&says.to_le_bytes());
    }
    state
}

/// The same with no more than the extension.
pub fn cpu_state(random: &mut Random, version: u16, extended: bool) -> Vec<u8> {
    if version == 1 {
        return random.bytes(412);
    }
    let mut state = random.bytes(if extended { 1191 } else { 1183 });
    state[144] = random.pick(&[0, 3]);
    state[145] = random.pick(&[0, 1]);
    state[260] = random.pick(&[0, 7]);
    if extended {
        state[1183..1187].copy_from_slice(&[4, 0, 0, 0]);
        for flag in &mut state[1187..1190] {
            *flag = random.pick(&[0, 1]);
        }
    }
    state
}

pub fn mmu_state(random: &mut Random, version: u16) -> Vec<u8> {
    random.bytes(if version == 1 { 68 } else { 264 })
}

/// A valid file: a random choice of sections in random order, and what they hold.
pub fn file(random: &mut Random) -> Made {
    let mut ids = section_ids(random);
    random.shuffle(&mut ids);
    let mut made = Made::file();
    for id in ids {
        known_or_other(random, &mut made, id);
    }
    made
}

/// Known ids at most once, CPU or CPUS, MMU or MMUS, and some that are not known.
fn section_ids(random: &mut Random) -> Vec<u32> {
    let mut ids: Vec<u32> = [1, 4, 5, 6].into_iter().filter(|_| !random.once_in(3)).collect();
    if random.once_in(3) {
        ids.push(random.pick(&[2, 7]));
    }
    if random.once_in(3) {
        ids.push(random.pick(&[3, 8]));
    }
    for _ in 0..random.below(4) {
        ids.push(random.pick(&[0, 9, 10, 256, 0x0100_0000, 0x0400_0000, u32::MAX]));
    }
    ids
}

fn known_or_other(random: &mut Random, made: &mut Made, id: u32) {
    let version = random.pick(&[1, 2]);
    match id {
        1 => made.section(1, 1, 0, |made| {
            meta(random, made);
            tail(random, made);
        }),
        2 => made.section(2, version, 0, |made| {
            let extended = random.once_in(2);
            made.cpu_state(&any_cpu_state(random, version, extended));
        }),
        3 => made.section(3, version, 0, |made| {
            made.raw(&mmu_state(random, version));
        }),
        4 => made.section(4, 1, 0, |made| {
            devices(random, made);
            tail(random, made);
        }),
        5 => made.section(5, 1, 0, |made| {
            disks(random, made);
            tail(random, made);
        }),
        6 => made.section(6, 1, 0, |made| opaque(random, made)),
        7 => made.section(7, version, 0, |made| {
            cpus(random, made, version);
            tail(random, made);
        }),
        8 => made.section(8, version, 0, |made| {
            mmus(random, made, version);
            tail(random, made);
        }),
        _ => {
            let (version, flags) = (small_id(random), small_id(random));
            made.section(id, version, flags, |made| opaque(random, made))
        }
    };
}

/// What a newer saver appends, now and then.
fn tail(random: &mut Random, made: &mut Made) {
    if random.once_in(4) {
        opaque(random, made);
    }
}

fn opaque(random: &mut Random, made: &mut Made) {
    let length = random.below(24);
    made.raw(&random.bytes(length));
}

fn meta(random: &mut Random, made: &mut Made) {
    made.number(8, random.u64());
    let parent = random.once_in(2);
    made.number(1, u64::from(parent));
    if parent {
        made.number(8, random.u64());
    }
    made.number(8, random.u64());
    let label = random.once_in(2);
    made.number(1, u64::from(label));
    if label {
        made.sized(4, &text::valid(random, 8));
    }
}

fn devices(random: &mut Random, made: &mut Made) {
    let most = if random.once_in(30) { 100 } else { 5 };
    let keys = distinct(random, most, device_key);
    made.number(4, keys.len() as u64);
    for key in keys {
        let length = random.below(12);
        made.device(key, &random.bytes(length));
    }
}

fn disks(random: &mut Random, made: &mut Made) {
    let keys = distinct(random, 5, id);
    made.number(4, keys.len() as u64);
    for key in keys {
        made.disk(key, &text::valid(random, 6), &text::valid(random, 6));
    }
}

fn cpus(random: &mut Random, made: &mut Made, version: u16) {
    let keys = distinct(random, 3, id);
    made.number(4, keys.len() as u64);
    for key in keys {
        let extended = random.once_in(2);
        let blob = random.below(12);
        made.cpu(key, &any_cpu_state(random, version, extended), &random.bytes(blob));
    }
}

fn mmus(random: &mut Random, made: &mut Made, version: u16) {
    let keys = distinct(random, 3, id);
    made.number(4, keys.len() as u64);
    for key in keys {
        made.mmu(key, &mmu_state(random, version));
    }
}

/// A valid wrapper.
pub fn wrapper(random: &mut Random) -> Made {
    let addresses =
        distinct(random, 6, |random| random.pick(&[0, 1, 250, 255, 256, 257, 0xFA00, u16::MAX]));
    let mut made = Made::wrapper(addresses.len() as u32);
    for address in addresses {
        let tag = random.u32().to_le_bytes();
        let length = random.below(12);
        made.controller(address, &tag, &random.bytes(length));
    }
    made
}
