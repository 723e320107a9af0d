//! The CPU and MMU states of a snapshot, located by its tables.

use crate::failure::Failure;
use crate::select;
use cimbrolau::snapshot;
use std::ffi::OsStr;
use std::ops::Range;

/// Where a state stands in its file. One in a section of its own, CPU or MMU, has no APIC id there.
#[derive(Clone, Copy)]
pub struct State {
    pub apic: Option<u32>,
    pub offset: u64,
    pub length: u64,
}

impl State {
    /// The places that it has in the file.
    pub fn range(&self) -> Range<usize> {
        self.offset as usize..(self.offset + self.length) as usize
    }

    /// What it is called.
    pub fn words(&self, what: &str) -> String {
        self.apic.map_or_else(|| what.to_string(), |apic| format!("{what} {apic}"))
    }
}

/// The state of a section of its own, if there is one.
fn single(file: &[u8], id: u32) -> Result<Vec<State>, Failure> {
    let sections = snapshot::sections(file)?;
    let own = sections.iter().filter(|section| section.id == id);
    Ok(own.map(|s| State { apic: None, offset: s.offset, length: s.length }).collect())
}

/// The CPU states of a file, in the order of their APIC ids.
pub fn cpus(file: &[u8]) -> Result<Vec<State>, Failure> {
    let mut states = single(file, 2)?;
    states.extend(snapshot::cpus(file)?.iter().map(|cpu| State {
        apic: Some(cpu.apic),
        offset: cpu.state_offset,
        length: cpu.state_length.into(),
    }));
    Ok(states)
}

/// The MMU states of a file, in the order of their APIC ids.
pub fn mmus(file: &[u8]) -> Result<Vec<State>, Failure> {
    let mut states = single(file, 3)?;
    states.extend(snapshot::mmus(file)?.iter().map(|mmu| State {
        apic: Some(mmu.apic),
        offset: mmu.state_offset,
        length: mmu.state_length.into(),
    }));
    Ok(states)
}

/// The state that `--cpu` names among these; without it the only one.
pub fn one(states: Vec<State>, what: &str, word: Option<&OsStr>) -> Result<State, Failure> {
    select::state(states, what, word)
}
