//! Reads and writes AEROSNAP version 1 snapshots, their `DSKC` disk-controller wrappers, AIPC messages and the rings that
//! carry them.
//!
//! The work is done by `libcimbrolau.a`, every function of which is proved to meet its contract: each call takes every
//! input, ends, and gives a reading exactly for inputs that follow the rules; a refused call leaves all lent memory as it
//! was. This crate gives it Rust's types. A caller owes nothing: no length to check first, no buffer to size. Where there is
//! no memory for an output, a call does not abort: it is refused as ROOM, with the length that the output would have.
//!
//! ```
//! use cimbrolau::{snapshot, Kind, Snapshot};
//!
//! let mut panel = Snapshot::empty();
//! panel.add_device((14, 1, 0), &[0x11])?;
//! panel.add_device((3, 1, 0), &[0xAB, 0xCD])?;
//! assert_eq!(panel.card().devices, 2); // kept up to date by the edits
//!
//! let devices = snapshot::devices(panel.bytes())?;
//! assert_eq!(devices[0].id, 3); // in the order of their keys, whatever the order of adding
//! assert_eq!(devices[0].payload(panel.bytes()), Some(&[0xAB, 0xCD][..]));
//!
//! let refusal = panel.add_device((3, 1, 0), &[]).unwrap_err();
//! assert_eq!(refusal.kind, Kind::Have);
//! # Ok::<(), cimbrolau::Refusal>(())
//! ```
//!
//! - [`snapshot`][]: snapshot files; [`Snapshot`][]: one with its [`Card`][]
//! - [`wrapper`][]: disk-controller wrappers
//! - [`ready`][]: whether a snapshot is ready to restore
//! - [`Message`][]: messages
//! - [`region`][]: regions of shared memory, and the rings in them
//! - [`sheet`][]: the fields of CPU and MMU states
//! - [`raw`][]: the calls as the library has them, over lent buffers

#![deny(missing_docs)]
#![deny(unsafe_code)]

mod memory;
mod message;
mod opened;
#[allow(unsafe_code)]
pub mod raw;
pub mod ready;
mod records;
mod refusal;
pub mod region;
mod salvage;
pub mod sheet;
pub mod snapshot;
pub mod wrapper;

pub use message::{Level, Message};
pub use opened::Snapshot;
pub use raw::Card;
pub use refusal::{Kind, Refusal, RefusedEntry, Result};
