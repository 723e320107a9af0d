//! A snapshot with its card, which stays true from edit to edit.

use std::borrow::Cow;

use crate::raw::Card;
use crate::refusal::{RefusedEntry, Result};
use crate::snapshot::{self, DeviceKey, NewDevice};

/// A snapshot file and the card of its canonical form. There is no way to have one without the other: opening a file makes the
/// card, every edit that is taken exchanges both, and a refused one leaves both as they were. So no edit of it is ever CARD.
///
/// The bytes are borrowed until the first edit, which gives it bytes of its own, in canonical form.
///
/// ```
/// use cimbrolau::{Kind, Snapshot};
///
/// let mut snapshot = Snapshot::empty();
/// snapshot.add_device((14, 1, 0), &[0x11])?;
/// snapshot.add_device((3, 1, 0), &[0xAB, 0xCD])?;
/// let card = snapshot.card();
/// assert_eq!((card.length, card.sections, card.devices, card.payloads), (71, 1, 2, 3));
///
/// let refusal = snapshot.add_device((3, 1, 0), &[]).unwrap_err();
/// assert_eq!(refusal.kind, Kind::Have);
/// assert_eq!(snapshot.card(), card);
/// assert_eq!(Snapshot::open(snapshot.bytes())?, snapshot); // the card is that of the bytes
/// # Ok::<(), cimbrolau::Refusal>(())
/// ```
#[derive(Debug, PartialEq, Eq)]
pub struct Snapshot<'a> {
    bytes: Cow<'a, [u8]>,
    card: Card,
}

impl<'a> Snapshot<'a> {
    /// The shortest snapshot: the header, and no section.
    ///
    /// ```
    /// use cimbrolau::{snapshot, Card, Snapshot};
    /// assert_eq!(Snapshot::empty().bytes(), snapshot::EMPTY);
    /// assert_eq!(Snapshot::empty().card(), Card::EMPTY);
    /// ```
    pub fn empty() -> Snapshot<'a> {
        Snapshot { bytes: Cow::Borrowed(&snapshot::EMPTY), card: Card::EMPTY }
    }

    /// Opens a file, lent or given: its first fault, or the file with the card of its canonical form.
    ///
    /// ```
    /// use cimbrolau::{Card, Kind, Snapshot};
    /// let mut file = cimbrolau::snapshot::EMPTY.to_vec();
    /// file.extend([4, 0, 0, 0, 1, 0, 0, 0, 4, 0, 0, 0, 0, 0, 0, 0]); // a DEVICES section
    /// file.extend([0, 0, 0, 0]); // with a count of 0, which its canonical form lacks
    /// assert_eq!(Snapshot::open(&file)?.card(), Card::EMPTY);
    ///
    /// file.pop();
    /// assert_eq!(Snapshot::open(file).unwrap_err().kind, Kind::Cut);
    /// # Ok::<(), cimbrolau::Refusal>(())
    /// ```
    pub fn open(file: impl Into<Cow<'a, [u8]>>) -> Result<Snapshot<'a>> {
        let bytes = file.into();
        let card = snapshot::open(&bytes)?;
        Ok(Snapshot { bytes, card })
    }

    /// The file, for the calls of [`snapshot`](crate::snapshot) that look at one.
    ///
    /// ```
    /// use cimbrolau::{snapshot, Snapshot};
    /// let mut panel = Snapshot::empty();
    /// panel.add_disk(1, b"base.img", b"")?;
    /// assert_eq!(snapshot::disks(panel.bytes())?[0].base(panel.bytes()), Some("base.img"));
    /// # Ok::<(), cimbrolau::Refusal>(())
    /// ```
    pub fn bytes(&self) -> &[u8] {
        &self.bytes
    }

    /// The card of the file's canonical form.
    ///
    /// ```
    /// assert_eq!(cimbrolau::Snapshot::empty().card().length, 16);
    /// ```
    pub fn card(&self) -> Card {
        self.card
    }

    /// The file alone; borrowed if nothing was edited.
    ///
    /// ```
    /// assert_eq!(cimbrolau::Snapshot::empty().into_bytes(), &cimbrolau::snapshot::EMPTY[..]);
    /// ```
    pub fn into_bytes(self) -> Cow<'a, [u8]> {
        self.bytes
    }

    /// Adds a device. A key that is there already is HAVE.
    ///
    /// ```
    /// let mut panel = cimbrolau::Snapshot::empty();
    /// panel.add_device((3, 1, 0), &[0xAB, 0xCD])?;
    /// assert_eq!((panel.card().devices, panel.card().payloads), (1, 2));
    /// # Ok::<(), cimbrolau::Refusal>(())
    /// ```
    pub fn add_device(&mut self, key: impl Into<DeviceKey>, payload: &[u8]) -> Result<()> {
        self.hold(snapshot::add_device(&self.bytes, self.card, key, payload)?)
    }

    /// Adds many devices, or none of them: the first that is refused is named by its index. Their payloads are parts of `store`.
    ///
    /// ```
    /// use cimbrolau::snapshot::NewDevice;
    /// let mut panel = cimbrolau::Snapshot::empty();
    /// let new = |id, place, length| NewDevice { id, version: 1, flags: 0, place, length };
    /// panel.add_devices(&[new(14, 2, 1), new(3, 0, 2)], &[0xAB, 0xCD, 0x11])?;
    /// assert_eq!((panel.card().devices, panel.card().payloads), (2, 3));
    /// # Ok::<(), cimbrolau::RefusedEntry>(())
    /// ```
    pub fn add_devices(
        &mut self,
        devices: &[NewDevice],
        store: &[u8],
    ) -> std::result::Result<(), RefusedEntry> {
        self.hold(snapshot::add_devices(&self.bytes, self.card, devices, store)?)
    }

    /// Adds a disk. A disk that is there already is HAVE.
    ///
    /// ```
    /// let mut panel = cimbrolau::Snapshot::empty();
    /// panel.add_disk(1, b"base.img", b"")?;
    /// assert_eq!((panel.card().length, panel.card().sections), (56, 1));
    /// # Ok::<(), cimbrolau::Refusal>(())
    /// ```
    pub fn add_disk(&mut self, id: u32, base: &[u8], overlay: &[u8]) -> Result<()> {
        self.hold(snapshot::add_disk(&self.bytes, self.card, id, base, overlay)?)
    }

    /// Removes a device. A key that is not there is ABSENT.
    ///
    /// ```
    /// use cimbrolau::Snapshot;
    /// let mut panel = Snapshot::empty();
    /// panel.add_device((18, 1, 0), &[0x11])?;
    /// panel.remove_device((18, 1, 0))?;
    /// assert_eq!(panel, Snapshot::empty());
    /// # Ok::<(), cimbrolau::Refusal>(())
    /// ```
    pub fn remove_device(&mut self, key: impl Into<DeviceKey>) -> Result<()> {
        self.hold(snapshot::remove_device(&self.bytes, self.card, key)?)
    }

    /// Removes a disk. A disk that is not there is ABSENT.
    ///
    /// ```
    /// use cimbrolau::{Kind, Snapshot};
    /// let refusal = Snapshot::empty().remove_disk(1).unwrap_err();
    /// assert_eq!(refusal.kind, Kind::Absent);
    /// ```
    pub fn remove_disk(&mut self, id: u32) -> Result<()> {
        self.hold(snapshot::remove_disk(&self.bytes, self.card, id)?)
    }

    /// Gives a device another payload. A key that is not there is ABSENT.
    ///
    /// ```
    /// let mut panel = cimbrolau::Snapshot::empty();
    /// panel.add_device((3, 1, 0), &[15, 0])?;
    /// panel.replace_device((3, 1, 0), &[16, 0, 0])?;
    /// assert_eq!((panel.card().devices, panel.card().payloads), (1, 3));
    /// # Ok::<(), cimbrolau::Refusal>(())
    /// ```
    pub fn replace_device(&mut self, key: impl Into<DeviceKey>, payload: &[u8]) -> Result<()> {
        self.hold(snapshot::replace_device(&self.bytes, self.card, key, payload)?)
    }

    /// What an edit gave takes the place of both.
    fn hold<E>(&mut self, (bytes, card): (Vec<u8>, Card)) -> std::result::Result<(), E> {
        *self = Snapshot { bytes: Cow::Owned(bytes), card };
        Ok(())
    }
}

impl AsRef<[u8]> for Snapshot<'_> {
    fn as_ref(&self) -> &[u8] {
        &self.bytes
    }
}
