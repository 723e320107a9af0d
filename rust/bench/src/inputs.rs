//! The inputs that are measured: files of a size, lists of a length in an order, texts.

/// In which order of their keys the entries of a list stand.
#[derive(Clone, Copy, PartialEq, Eq)]
pub enum Order {
    Ascending,
    Random,
    Descending,
}

impl Order {
    pub const ALL: [Order; 3] = [Order::Ascending, Order::Random, Order::Descending];

    pub fn name(self) -> &'static str {
        match self {
            Order::Ascending => "ascending",
            Order::Random => "random",
            Order::Descending => "descending",
        }
    }

    /// The ids 1 to `count` in this order.
    fn ids(self, count: u32) -> Vec<u32> {
        let mut ids: Vec<u32> = (1..=count).collect();
        match self {
            Order::Ascending => (),
            Order::Random => shuffle(&mut ids),
            Order::Descending => ids.reverse(),
        }
        ids
    }
}

/// Shuffles, in the same way at each run.
fn shuffle(ids: &mut [u32]) {
    let mut state = 15u64;
    for i in (1..ids.len()).rev() {
        state = state.wrapping_mul(6364136223846793005).wrapping_add(1442695040888963407);
        ids.swap(i, (state >> 33) as usize % (i + 1));
    }
}

const META: u32 = 1;
const DEVICES: u32 = 4;
const DISKS: u32 = 5;
const RAM: u32 = 6;
const CPUS: u32 = 7;
const MMUS: u32 = 8;

/// A file of these sections, each an id and a payload.
fn file(sections: &[(u32, Vec<u8>)]) -> Vec<u8> {
    let mut file = cimbrolau::snapshot::EMPTY.to_vec();
    for (id, payload) in sections {
        framed(&mut file, *id, payload);
    }
    file
}

/// A section or a device: id, version 1, flags 0, length, payload.
fn framed(bytes: &mut Vec<u8>, id: u32, payload: &[u8]) {
    bytes.extend(id.to_le_bytes());
    bytes.extend([1, 0, 0, 0]);
    bytes.extend((payload.len() as u64).to_le_bytes());
    bytes.extend(payload);
}

/// A file of `size` bytes that is nearly all RAM, with a label, two devices and a disk where there is room for them.
pub fn ram(size: usize) -> Vec<u8> {
    let small = file(&[(META, meta()), (DEVICES, device_list(&[2, 1], 8)), (DISKS, one_disk())]);
    if size < small.len() + 16 {
        return cimbrolau::snapshot::EMPTY.to_vec();
    }
    let mut file = small;
    let rest = size - file.len() - 16;
    framed(&mut file, RAM, &vec![0xA5; rest]);
    file
}

/// A panel that is ready to restore: a label, 1 MiB of RAM, eight devices that are needed and `more` others, two disks.
pub fn panel(more: u32, order: Order) -> Vec<u8> {
    let needed = [2, 3, 4, 6, 13, 16, 17, 21];
    let mut ids: Vec<u32> = needed.into_iter().chain(100..100 + more).collect();
    match order {
        Order::Ascending => (),
        Order::Random => shuffle(&mut ids),
        Order::Descending => ids.reverse(),
    }
    let mut devices = (ids.len() as u32).to_le_bytes().to_vec();
    for id in ids {
        let payload = if id == 6 { &cimbrolau::wrapper::EMPTY[..] } else { &[0x11; 64] };
        framed(&mut devices, id, payload);
    }
    let mut disks = 2u32.to_le_bytes().to_vec();
    disk(&mut disks, 0, b"panel.img");
    disk(&mut disks, 1, b"");
    let ram = vec![0xA5; 1 << 20];
    file(&[(META, meta()), (RAM, ram), (DEVICES, devices), (DISKS, disks)])
}

/// A panel whose list of disks is cut, and of whose devices two have one key: META and RAM are whole.
pub fn damaged_panel() -> Vec<u8> {
    let devices = device_list(&[3, 4, 13, 3], 64);
    let ram = vec![0xA5; 1 << 20];
    let mut file = file(&[(META, meta()), (RAM, ram), (DEVICES, devices), (DISKS, one_disk())]);
    file.pop();
    file
}

/// A file of so many sections of RAM with no payload, whose version is not taken.
pub fn broken(count: usize) -> Vec<u8> {
    let mut file = cimbrolau::snapshot::EMPTY.to_vec();
    let header = [6, 0, 0, 0, 9, 0, 0, 0, 0, 0, 0, 0, 0, 0, 0, 0];
    (0..count).for_each(|_| file.extend(header));
    file
}

fn meta() -> Vec<u8> {
    let mut payload = vec![0; 8 + 1 + 8];
    payload.push(1);
    payload.extend(20u32.to_le_bytes());
    payload.extend(b"heating panel, night");
    payload
}

fn one_disk() -> Vec<u8> {
    let mut list = 1u32.to_le_bytes().to_vec();
    disk(&mut list, 1, b"panel.img");
    list
}

fn disk(list: &mut Vec<u8>, id: u32, base: &[u8]) {
    list.extend(id.to_le_bytes());
    list.extend((base.len() as u32).to_le_bytes());
    list.extend(base);
    list.extend(0u32.to_le_bytes());
}

fn device_list(ids: &[u32], payload: usize) -> Vec<u8> {
    devices_of(ids, |_| payload)
}

/// The same with a length for each id.
fn devices_of(ids: &[u32], length: impl Fn(u32) -> usize) -> Vec<u8> {
    let mut list = (ids.len() as u32).to_le_bytes().to_vec();
    for id in ids {
        framed(&mut list, *id, &vec![0x5A; length(*id)]);
    }
    list
}

/// A file with `count` devices of `payload` bytes each.
pub fn devices(count: u32, payload: usize, order: Order) -> Vec<u8> {
    file(&[(DEVICES, device_list(&order.ids(count), payload))])
}

/// A table of `count` new devices, of ids that no file here has, and their payloads of so many bytes one behind the other.
pub fn table(count: u32, payload: usize, order: Order) -> (Vec<u8>, Vec<u8>) {
    let mut table = Vec::new();
    for (id, place) in order.ids(count).into_iter().zip((0..).step_by(payload)) {
        table.extend((1000 + id).to_le_bytes());
        table.extend([1, 0, 0, 0]);
        table.extend((place as u64).to_le_bytes());
        table.extend((payload as u64).to_le_bytes());
    }
    (table, vec![0x6B; payload * count as usize])
}

/// A file with `count` devices of 0 to 199 bytes each.
pub fn mixed_devices(count: u32, order: Order) -> Vec<u8> {
    file(&[(DEVICES, devices_of(&order.ids(count), |id| id as usize * 37 % 200))])
}

/// A file with `count` disks, each with a base image's name and no overlay.
pub fn disks(count: u32, order: Order) -> Vec<u8> {
    let mut list = count.to_le_bytes().to_vec();
    for id in order.ids(count) {
        disk(&mut list, id, b"images/panel-base.img");
    }
    file(&[(DISKS, list)])
}

/// A CPU state of version 2 with the extension.
pub fn cpu_state() -> Vec<u8> {
    let mut state = vec![0; 1191];
    state[1183] = 4;
    state
}

/// A file with `count` CPUs of version 2 with the extension, and as many MMUs.
pub fn cpus(count: u32, order: Order) -> Vec<u8> {
    let mut cpus = count.to_le_bytes().to_vec();
    let mut mmus = cpus.clone();
    let state = cpu_state();
    for id in order.ids(count) {
        cpus.extend(id.to_le_bytes());
        cpus.extend((state.len() as u32).to_le_bytes());
        cpus.extend(&state);
        cpus.extend([64, 0, 0, 0, 0, 0, 0, 0]);
        cpus.extend([0x33; 64]);
        mmus.extend(id.to_le_bytes());
        mmus.extend([0x44; 264]);
    }
    let mut file = file(&[(CPUS, cpus)]);
    let second = file.len();
    framed(&mut file, MMUS, &mmus);
    file[20] = 2;
    file[second + 4] = 2;
    file
}

/// A text of up to `size` bytes: this one, again and again, in whole characters.
pub fn text(sample: &str, size: usize) -> String {
    let mut text = String::new();
    for character in sample.chars().cycle() {
        if text.len() + character.len_utf8() > size {
            return text;
        }
        text.push(character);
    }
    text
}

pub const ASCII: &str = "tank 15 level 3840, pump 2 on, valve 7 closed. ";
pub const MIXED: &str = "Vorlauf 65 °C, température 温度 ➜ 🔥 ok; ";

/// A Panic message with this text.
pub fn panic(text: &str) -> Vec<u8> {
    let mut message = 0x1FFEu16.to_le_bytes().to_vec();
    message.extend((text.len() as u32).to_le_bytes());
    message.extend(text.as_bytes());
    message
}
