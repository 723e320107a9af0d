//! Disk-controller wrappers (`DSKC`): checking, the table of controllers, the canonical form.

use crate::raw;
use crate::records::{self, bytes, position, table_most, u16_at, u64_at};
use crate::refusal::{filled, outcome, Result};

/// The shortest wrapper: the header, and no controller.
///
/// ```
/// use cimbrolau::wrapper;
/// wrapper::check(&wrapper::EMPTY)?;
/// # Ok::<(), cimbrolau::Refusal>(())
/// ```
pub const EMPTY: [u8; 20] = *b"AERO\x01\x00\x00\x00DSKC\x01\x00\x00\x00\x00\x00\x00\x00";

/// The most bytes a wrapper has, 64 MiB; a longer one is SIZE.
pub const MOST_BYTES: u64 = 64 << 20;

// How many controllers a wrapper has at most.
const CONTROLLERS: usize = 256;

/// A disk controller of a wrapper. Its key is its address.
#[derive(Clone, Copy, Debug, PartialEq, Eq, Hash)]
pub struct Controller {
    /// Bus × 256 + device × 8 + function.
    pub address: u16,
    /// What kind of controller it is, any four bytes.
    pub tag: [u8; 4],
    /// Where its payload starts in the wrapper.
    pub offset: u64,
    /// How many bytes its payload has.
    pub length: u64,
    /// Its number in the wrapper's own list, from 0.
    pub position: u32,
}

impl Controller {
    /// The bus in the address.
    ///
    /// ```
    /// # use cimbrolau::wrapper::Controller;
    /// let at = |address| Controller { address, tag: *b"SATA", offset: 0, length: 0, position: 0 };
    /// assert_eq!((at(250).bus(), at(250).device(), at(250).function()), (0, 31, 2));
    /// assert_eq!((at(256).bus(), at(256).device(), at(256).function()), (1, 0, 0));
    /// ```
    pub fn bus(&self) -> u8 {
        (self.address >> 8) as u8
    }

    /// The device in the address, 0 to 31. (See [`Controller::bus`] for an example.)
    pub fn device(&self) -> u8 {
        (self.address >> 3 & 31) as u8
    }

    /// The function in the address, 0 to 7. (See [`Controller::bus`] for an example.)
    pub fn function(&self) -> u8 {
        (self.address & 7) as u8
    }

    /// The controller's payload in the wrapper that it came from; none in a wrapper too short to be that.
    /// (See [`controllers`] for an example.)
    pub fn payload<'a>(&self, wrapper: &'a [u8]) -> Option<&'a [u8]> {
        records::part(wrapper, self.offset, self.length)
    }

    fn of(record: &[u8]) -> Controller {
        Controller {
            address: u16_at(record, 0),
            tag: bytes(record, 4),
            offset: u64_at(record, 8),
            length: u64_at(record, 16),
            position: position(record),
        }
    }
}

/// Whether the wrapper follows the rules; else its first fault.
///
/// ```
/// use cimbrolau::{wrapper, Kind};
/// assert!(wrapper::check(&wrapper::EMPTY).is_ok());
///
/// let refusal = wrapper::check(b"AERO\x01\x00\x00\x00DISK\x01\x00\x00\x00").unwrap_err();
/// assert_eq!((refusal.kind, refusal.place), (Kind::Magic, 8));
/// ```
pub fn check(wrapper: &[u8]) -> Result<()> {
    let answer = raw::wrapper_check(wrapper);
    outcome(answer.number, answer.place)?;
    Ok(())
}

/// Every controller of the wrapper, in the order of their addresses.
///
/// ```
/// use cimbrolau::wrapper;
/// let mut file = wrapper::EMPTY.to_vec();
/// file[16] = 2; // a count of 2
/// file.extend(b"\x00\x01\x00\x00SATA\x01\x00\x00\x00\x07"); // bus 1, device 0, function 0
/// file.extend(b"\xFA\x00\x00\x00NVME\x00\x00\x00\x00"); // bus 0, device 31, function 2
/// let found = wrapper::controllers(&file)?;
/// assert_eq!((found[0].address, &found[0].tag), (250, b"NVME"));
/// assert_eq!((found[1].address, &found[1].tag), (256, b"SATA"));
/// assert_eq!((found[0].position, found[1].position), (1, 0)); // as they stand in the wrapper
/// assert_eq!(found[1].payload(&file), Some(&[7][..]));
/// # Ok::<(), cimbrolau::Refusal>(())
/// ```
pub fn controllers(wrapper: &[u8]) -> Result<Vec<Controller>> {
    let table =
        filled(table_most(wrapper, 12, CONTROLLERS), |table| raw::controllers(wrapper, table))?;
    records::all(&table, Controller::of)
}

/// The wrapper's canonical form: its controllers in the order of their addresses, a count of 0 kept.
///
/// ```
/// use cimbrolau::wrapper;
/// let mut file = wrapper::EMPTY.to_vec();
/// file[16] = 2; // a count of 2
/// file.extend(b"\x00\x01\x00\x00SATA\x01\x00\x00\x00\x07"); // bus 1, device 0, function 0
/// file.extend(b"\xFA\x00\x00\x00NVME\x00\x00\x00\x00"); // bus 0, device 31, function 2
/// let canonical = wrapper::canonical(&file)?;
/// assert_eq!(&canonical[24..28], b"NVME");
/// assert_eq!(canonical.len(), file.len());
/// # Ok::<(), cimbrolau::Refusal>(())
/// ```
pub fn canonical(wrapper: &[u8]) -> Result<Vec<u8>> {
    // It is as long as the wrapper.
    filled(wrapper.len().min(MOST_BYTES as usize), |out| raw::wrapper_canonical(wrapper, out))
}
