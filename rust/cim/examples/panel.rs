//! Makes `samples/panel.aerosnap`, the snapshot that the documents show:
//!
//!     cargo run --manifest-path rust/Cargo.toml -p cim --example panel > samples/panel.aerosnap
//!
//! It is a heating panel at night, saved the way a saver in a hurry would: sections out of order, devices and disks out
//! of order, a section that this format does not know. All of that follows the rules.

use std::io::Write;

fn main() -> std::io::Result<()> {
    std::io::stdout().write_all(&panel())
}

/// The sample's bytes.
pub fn panel() -> Vec<u8> {
    let mut file = b"AEROSNAP\x01\x00\x01\x00\x00\x00\x00\x00".to_vec();
    section(&mut file, 4096, 7, 1, b"boiler house 2");
    section(&mut file, 6, 1, 0, &[0xA5; 64]); // RAM
    section(&mut file, 4, 1, 0, &devices());
    section(&mut file, 5, 1, 0, &disks());
    section(&mut file, 1, 1, 0, &meta());
    file
}

fn section(file: &mut Vec<u8>, id: u32, version: u16, flags: u16, payload: &[u8]) {
    device(file, id, version, flags, payload); // the two have one layout
}

fn device(list: &mut Vec<u8>, id: u32, version: u16, flags: u16, payload: &[u8]) {
    list.extend(id.to_le_bytes());
    list.extend(version.to_le_bytes());
    list.extend(flags.to_le_bytes());
    list.extend((payload.len() as u64).to_le_bytes());
    list.extend(payload);
}

/// A tank level of 15 (device 3), a pump (14), the disk controllers (256), the tank's older record (3, version 0).
fn devices() -> Vec<u8> {
    let mut list = 4u32.to_le_bytes().to_vec();
    device(&mut list, 256, 1, 0, &wrapper());
    device(&mut list, 14, 1, 0, &[0x11]);
    device(&mut list, 3, 1, 0, &15u16.to_le_bytes());
    device(&mut list, 3, 0, 0, &15u16.to_le_bytes());
    list
}

/// A wrapper of two controllers: bus 1, device 0, function 0, and bus 0, device 31, function 2.
fn wrapper() -> Vec<u8> {
    let mut bytes = b"AERO\x01\x00\x00\x00DSKC\x01\x00\x00\x00".to_vec();
    bytes.extend(2u32.to_le_bytes());
    controller(&mut bytes, 256, b"NVME", b"\x01");
    controller(&mut bytes, 250, b"SATA", b"\x02\x03");
    bytes
}

fn controller(wrapper: &mut Vec<u8>, address: u16, tag: &[u8; 4], payload: &[u8]) {
    wrapper.extend(address.to_le_bytes());
    wrapper.extend(0u16.to_le_bytes());
    wrapper.extend(tag);
    wrapper.extend((payload.len() as u32).to_le_bytes());
    wrapper.extend(payload);
}

fn disks() -> Vec<u8> {
    let mut list = 2u32.to_le_bytes().to_vec();
    disk(&mut list, 2, "messwerte-übersicht.img", "");
    disk(&mut list, 1, "panel.img", "panel-night.overlay");
    list
}

fn disk(list: &mut Vec<u8>, id: u32, base: &str, overlay: &str) {
    list.extend(id.to_le_bytes());
    text(list, base);
    text(list, overlay);
}

fn text(bytes: &mut Vec<u8>, text: &str) {
    bytes.extend((text.len() as u32).to_le_bytes());
    bytes.extend(text.as_bytes());
}

/// Snapshot 41, made from 40, with its time and a label.
fn meta() -> Vec<u8> {
    let mut payload = 41u64.to_le_bytes().to_vec();
    payload.push(1);
    payload.extend(40u64.to_le_bytes());
    payload.extend(1_767_225_600_000u64.to_le_bytes());
    payload.push(1);
    text(&mut payload, "heating panel, night");
    payload
}
