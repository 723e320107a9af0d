//! Ready to restore? One yes or no before a panel is switched; for a no, what is missing.

use crate::raw;
use crate::records::u32_at;
use crate::refusal::{outcome, Result};
use std::fmt;

/// The ids of the devices that are needed.
pub mod id {
    /// The older id of an interrupt controller; [`PLATFORM_INTERRUPTS`] stands for both.
    pub const APIC: u32 = 2;
    /// The timer, PIT.
    pub const PIT: u32 = 3;
    /// The clock, RTC.
    pub const RTC: u32 = 4;
    /// The disk controllers, in one wrapper.
    pub const DISK_CONTROLLER: u32 = 6;
    /// The keyboard controller, i8042.
    pub const I8042: u32 = 13;
    /// ACPI power management.
    pub const ACPI_PM: u32 = 16;
    /// The event timer, HPET.
    pub const HPET: u32 = 17;
    /// An interrupt controller.
    pub const PLATFORM_INTERRUPTS: u32 = 21;
}

/// Something that is needed and missing.
///
/// ```
/// use cimbrolau::ready::Missing;
/// assert_eq!(Missing::Device(17).to_string(), "device 17 HPET");
/// assert_eq!(Missing::Device(21).to_string(), "device 2 or 21 interrupt controller");
/// assert_eq!(Missing::Disk(0).to_string(), "disk 0");
/// ```
#[derive(Clone, Copy, Debug, PartialEq, Eq, Hash, PartialOrd, Ord)]
pub enum Missing {
    /// A device with this id. 21 is missing where there is neither 2 nor 21; 6 where there is not exactly one entry with
    /// that id, or where its payload is no accepted wrapper.
    Device(u32),
    /// The disk with this id.
    Disk(u32),
}

impl fmt::Display for Missing {
    fn fmt(&self, f: &mut fmt::Formatter<'_>) -> fmt::Result {
        match *self {
            Missing::Device(id::PIT) => write!(f, "device 3 PIT"),
            Missing::Device(id::RTC) => write!(f, "device 4 RTC"),
            Missing::Device(id::DISK_CONTROLLER) => write!(f, "device 6 disk controllers"),
            Missing::Device(id::I8042) => write!(f, "device 13 i8042"),
            Missing::Device(id::ACPI_PM) => write!(f, "device 16 ACPI PM"),
            Missing::Device(id::HPET) => write!(f, "device 17 HPET"),
            Missing::Device(id::PLATFORM_INTERRUPTS) => {
                write!(f, "device 2 or 21 interrupt controller")
            }
            Missing::Device(id) => write!(f, "device {id}"),
            Missing::Disk(id) => write!(f, "disk {id}"),
        }
    }
}

impl Missing {
    /// What a pair of the list names.
    fn of(pair: &[u8]) -> Missing {
        match (u32_at(pair, 0), u32_at(pair, 4)) {
            (1, id) => Missing::Device(id),
            (2, id) => Missing::Disk(id),
            (part, _) => panic!("libcimbrolau.a listed {part}, which this wrapper does not know"),
        }
    }
}

/// The bytes of a pair, and how many pairs there are at most.
const PAIR: usize = 8;
const MOST_PAIRS: usize = 9;

/// What the snapshot lacks to be restored, devices before disks, each ascending; nothing if it is ready.
///
/// ```
/// use cimbrolau::ready::{self, Missing};
/// use cimbrolau::{wrapper, Kind, Snapshot};
///
/// let mut panel = Snapshot::empty();
/// for id in [3, 4, 13, 16, 21] {
///     panel.add_device((id, 1, 0), b"")?;
/// }
/// panel.add_device((6, 1, 0), &wrapper::EMPTY)?;
/// panel.add_disk(1, b"", b"")?; // empty paths mean no backend
/// assert_eq!(ready::missing(panel.bytes())?, [Missing::Device(17), Missing::Disk(0)]);
///
/// panel.add_device((17, 1, 0), b"")?;
/// panel.add_disk(0, b"panel.img", b"")?;
/// assert_eq!(ready::missing(panel.bytes())?, []);
///
/// // A second entry with id 6 under another version: there has to be exactly one.
/// panel.add_device((6, 2, 0), &wrapper::EMPTY)?;
/// assert_eq!(ready::missing(panel.bytes())?, [Missing::Device(6)]);
///
/// assert_eq!(ready::missing(&panel.bytes()[..20]).unwrap_err().kind, Kind::Cut);
/// # Ok::<(), cimbrolau::Refusal>(())
/// ```
pub fn missing(file: &[u8]) -> Result<Vec<Missing>> {
    let mut list = [0; PAIR * MOST_PAIRS];
    let answer = raw::ready(file, &mut list);
    let written = outcome(answer.number, answer.place)?;
    Ok(list[..written as usize].chunks_exact(PAIR).map(Missing::of).collect())
}

/// Whether the snapshot is ready to restore.
///
/// ```
/// use cimbrolau::{ready, snapshot};
/// assert!(!ready::is_ready(&snapshot::EMPTY)?);
/// # Ok::<(), cimbrolau::Refusal>(())
/// ```
pub fn is_ready(file: &[u8]) -> Result<bool> {
    let answer = raw::ready(file, &mut [0; PAIR * MOST_PAIRS]);
    outcome(answer.number, answer.place)?;
    Ok(answer.yes == 1)
}
