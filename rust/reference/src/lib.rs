//! An independent reader and writer of AEROSNAP files, DSKC wrappers and AIPC messages, and of the rings that carry them.
//!
//! It is written from the rules alone, never from the proved library, so that the two can be compared:
//! it is the oracle of the differential tests and the peer of the benchmarks. Each call reads its input
//! once into slices of it, and answers a number and a place.
//!
//! - [`answer`]: the refusals by name;
//! - [`cursor`]: fields read one after the other, and bytes written one after the other;
//! - [`list`]: the lists of devices, disks, CPUs, MMUs and controllers;
//! - [`card`]: what is shown of a canonical file, and how edits move it;
//! - [`snapshot`], [`wrapper`], [`message`]: the three formats and their calls;
//! - [`many`]: many devices at once;
//! - [`ready`]: what a snapshot lacks to be restored;
//! - [`salvage`]: what can be kept of a damaged file;
//! - [`ring`]: regions of shared memory and the rings in them;
//! - [`sheet`]: the fields of CPU and MMU states.

pub mod answer;
pub mod card;
pub mod cursor;
pub mod list;
pub mod many;
pub mod message;
pub mod ready;
pub mod ring;
pub mod salvage;
pub mod sheet;
pub mod snapshot;
pub mod wrapper;

pub use answer::Answer;
pub use card::{Card, Edited};
pub use many::{add_devices, add_devices_in_one_pass};
pub use message::{message_read, message_write, Reading};
pub use ready::{ready, Readiness};
pub use ring::{
    region_check, ring_commit, ring_fill, ring_report, ring_reserve, ring_take, Cursors, Pair,
    Record,
};
pub use salvage::{salvage, Salvaged};
pub use sheet::{access, cpu_field, cpu_set, mmu_field, mmu_set, Access};
pub use snapshot::{
    add_device, add_disk, canonical, check, cpus, devices, disks, meta, mmus, open, remove_device,
    remove_disk, replace_device, sections, Meta,
};
pub use wrapper::{controllers, wrapper_canonical, wrapper_check};
