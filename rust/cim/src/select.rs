//! Parts of a snapshot by what a command line calls them.

use crate::failure::Failure;
use crate::names;
use crate::shown::name_of;
use crate::states::State;
use crate::words::number_of;
use cimbrolau::snapshot::{Device, Disk, Section};
use std::ffi::OsStr;

/// The numbers of a word that are parted by commas, up to `most` of them.
fn numbers(option: &str, word: &OsStr, most: usize) -> Result<Vec<u32>, Failure> {
    let text = word.to_str().unwrap_or("?");
    let numbers: Option<Vec<u32>> =
        text.split(',').map(|part| number_of(OsStr::new(part.trim()))).collect();
    numbers.filter(|numbers| numbers.len() <= most).ok_or_else(|| {
        Failure::Usage(format!("`{option} {}` is no number, nor numbers by commas", name_of(word)))
    })
}

/// The one item that is meant, if there is exactly one.
fn one<T>(items: Vec<T>, what: &str, more: &str) -> Result<T, Failure> {
    let found = items.len();
    let mut items = items.into_iter();
    match (items.next(), found) {
        (Some(item), 1) => Ok(item),
        (Some(_), _) => {
            Err(Failure::Usage(format!("{what} is there {found} times; say which, as {more}")))
        }
        (None, _) => Err(Failure::Absent(format!("there is no {what}"))),
    }
}

/// The device of ID,VERSION,FLAGS; the last of them may be left out where only one device is meant.
pub fn device(devices: Vec<Device>, word: &OsStr) -> Result<Device, Failure> {
    let key = numbers("--device", word, 3)?;
    let is_meant = |device: &Device| {
        let own = [device.id, device.version.into(), device.flags.into()];
        own.starts_with(&key)
    };
    let meant = devices.into_iter().filter(is_meant).collect();
    one(meant, &format!("device {}", name_of(word)), "ID,VERSION,FLAGS")
}

/// The disk of an id.
pub fn disk(disks: Vec<Disk>, word: &OsStr) -> Result<Disk, Failure> {
    let id = numbers("--disk", word, 1)?;
    let meant = disks.into_iter().filter(|disk| [disk.id] == id[..]).collect();
    one(meant, &format!("disk {}", name_of(word)), "its id")
}

/// The CPU or MMU state of an APIC id; without a word the only one.
pub fn state(states: Vec<State>, what: &str, word: Option<&OsStr>) -> Result<State, Failure> {
    let Some(word) = word else {
        return one(states, what, "--cpu APIC");
    };
    let apic = numbers("--cpu", word, 1)?;
    let meant = states.into_iter().filter(|state| state.apic == apic.first().copied()).collect();
    one(meant, &format!("{what} {}", name_of(word)), "its APIC id")
}

/// The section of an id or a name; of several with one id, the one of ID,NUMBER, counted from 0 among them.
pub fn section(sections: Vec<Section>, word: &OsStr) -> Result<Section, Failure> {
    let text = word.to_str().unwrap_or("?");
    let numbers = match names::section_id(text) {
        Some(id) => vec![id],
        None => numbers("--section", word, 2)?,
    };
    let alike = sections.into_iter().filter(|section| numbers.first() == Some(&section.id));
    let meant = match numbers.get(1) {
        Some(number) => alike.skip(*number as usize).take(1).collect(),
        None => alike.collect(),
    };
    one(meant, &format!("section {}", name_of(word)), "ID,NUMBER, from 0")
}
