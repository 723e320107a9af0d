//! Two threads pass messages over one region, taking turns by a `Mutex`:
//!
//!     cargo run --release --manifest-path rust/Cargo.toml -p cimbrolau --example two_threads
//!
//! One reserves, fills and commits, with the lock given back after each step, so that the other meets the ring in every
//! state between. That one takes messages and reads them where they stand.

use cimbrolau::region::{layout, Plan, Region, Ring};
use cimbrolau::{Kind, Message, Result};
use std::sync::Mutex;
use std::thread::{scope, yield_now};

const MESSAGES: u32 = 100_000;

/// The one queue. Its ring holds few messages, so that it is often full and often empty.
const QUEUE: u32 = 0;
const CAPACITY: u32 = 1024;

fn main() -> Result<()> {
    let bytes = passed(MESSAGES)?;
    println!("{MESSAGES} messages, {bytes} bytes, each whole and in order");
    Ok(())
}

/// Passes so many messages from one thread to another; the bytes that they had.
pub fn passed(messages: u32) -> Result<u64> {
    let mut bytes = layout(&[Plan { kind: QUEUE, capacity: CAPACITY }])?;
    // The cursors wrap on the way.
    let ring = bytes.len() - CAPACITY as usize - 16;
    for cursor in bytes[ring..ring + 12].chunks_exact_mut(4) {
        cursor.copy_from_slice(&(u32::MAX - 65_535).to_le_bytes());
    }
    let region = Mutex::new(Region::open(&mut bytes)?);
    Ok(scope(|threads| {
        threads.spawn(|| produce(&region, messages));
        take(&region, messages)
    }))
}

/// The most bytes of data in a message, and of the whole message.
const MOST_DATA: usize = 196;
const MOST: usize = 18 + MOST_DATA;

/// The message of a number: no other has its bytes.
fn message(number: u32, data: &mut [u8; MOST_DATA]) -> Message<'_> {
    let length = (number.wrapping_mul(0x9E37_79B1) >> 16) as usize % (MOST_DATA + 1);
    for (at, byte) in data[..length].iter_mut().enumerate() {
        *byte = (number as usize + at) as u8;
    }
    Message::MmioWrite { id: number, addr: u64::from(number) << 12, data: &data[..length] }
}

/// One step with the lock, which is given back behind it. A refusal that nobody waits for ends both threads: the lock is
/// not to be had behind a panic.
fn turn<T>(
    region: &Mutex<Region>,
    wait: Option<Kind>,
    step: impl FnOnce(&mut Ring) -> Result<T>,
) -> Option<T> {
    let mut region = region.lock().expect("the other thread has failed");
    match region.ring(QUEUE).and_then(|mut ring| step(&mut ring)) {
        Ok(done) => Some(done),
        Err(refusal) if Some(refusal.kind) == wait => None,
        Err(refusal) => panic!("refused {refusal}"),
    }
}

/// A step, tried again while it is refused as `wait`.
fn turns<T>(region: &Mutex<Region>, wait: Kind, mut step: impl FnMut(&mut Ring) -> Result<T>) -> T {
    loop {
        match turn(region, Some(wait), &mut step) {
            Some(done) => return done,
            None => yield_now(),
        }
    }
}

fn produce(region: &Mutex<Region>, messages: u32) -> Option<()> {
    let (mut data, mut bytes) = ([0; MOST_DATA], [0; MOST]);
    for number in 0..messages {
        let length = message(number, &mut data).write_to(&mut bytes).expect("a message that fits");
        let reserved = turns(region, Kind::Full, |ring| ring.reserve(length as u64));
        let filled = turn(region, None, |ring| Ok(ring.fill(reserved, &bytes[..length])?))?;
        turn(region, None, |ring| Ok(ring.commit(filled)?))?;
    }
    Some(())
}

/// Takes so many messages, each of which has to be the next, whole; the bytes that they had.
fn take(region: &Mutex<Region>, messages: u32) -> u64 {
    let mut data = [0; MOST_DATA];
    let mut bytes = 0;
    for number in 0..messages {
        bytes += turns(region, Kind::Empty, |ring| {
            let payload = ring.take()?;
            assert_eq!(Message::read(payload)?, message(number, &mut data), "message {number}");
            Ok(payload.len() as u64)
        });
    }
    let more = turn(region, Some(Kind::Empty), |ring| Ok(ring.take()?.len()));
    assert_eq!(more, None, "a message behind the last");
    bytes
}
