//! Makes `samples/panel.region`, the region that the documents show:
//!
//!     cargo run --manifest-path rust/Cargo.toml -p cim --example panel_region > samples/panel.region
//!
//! It is the shared memory of a heating panel at night, saved while a command was being written. Both rings have been in
//! use for so long that their cursors are about to wrap, and in both a record has gone past the end.

use cimbrolau::region::{layout, Plan, Region};
use cimbrolau::{Level, Message, Result};
use std::io::Write;

/// The queues by their numbers, which are their kinds too.
const COMMANDS: u32 = 0;
const EVENTS: u32 = 1;

fn main() -> std::io::Result<()> {
    std::io::stdout().write_all(&panel_region().expect("the sample is taken"))
}

/// The sample's bytes.
pub fn panel_region() -> Result<Vec<u8>> {
    let mut bytes =
        layout(&[Plan { kind: COMMANDS, capacity: 128 }, Plan { kind: EVENTS, capacity: 64 }])?;
    let mut region = Region::open(&mut bytes)?;
    let places: Vec<usize> = region.queues().iter().map(|queue| queue.offset as usize).collect();
    turn_to(&mut bytes, places[0], 40);
    turn_to(&mut bytes, places[1], 24);

    region = Region::open(&mut bytes)?;
    let mut commands = region.ring(COMMANDS)?;
    commands.send(&Message::PortRead { id: 7, port: 1016, size: 1 }.write()?)?;
    commands.send(&Message::MmioWrite { id: 8, addr: 4096, data: b"valve 7" }.write()?)?;
    let disk =
        Message::DiskRead { id: 9, disk_offset: 512, len: 16, guest_offset: 8192 }.write()?;
    let reserved = commands.reserve(disk.len() as u64)?;
    let _never_committed = commands.fill(reserved, &disk)?;

    let mut events = region.ring(EVENTS)?;
    events.send(&Message::PortReadResp { id: 7, value: 15 }.write()?)?;
    events.send(&Message::Log { level: Level::Warn, text: "tank 15" }.write()?)?;
    events.send(&[0x02, 0x00])?; // of a peer that knows more tags
    Ok(bytes)
}

/// Moves the cursors of the empty ring at a place so far that `left` bytes are left before they wrap.
fn turn_to(region: &mut [u8], ring: usize, left: u32) {
    for cursor in region[ring..ring + 12].chunks_exact_mut(4) {
        cursor.copy_from_slice(&0u32.wrapping_sub(left).to_le_bytes());
    }
}
