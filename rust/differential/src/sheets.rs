//! A field of a state, read and set by the library and by the reference.

use reference::{Access, Answer};

use crate::compare::Comparison;

/// The two kinds of state.
#[derive(Clone, Copy, Debug, PartialEq, Eq)]
pub enum State {
    Cpu,
    Mmu,
}

type Get = fn(&[u8], u32, u32, &mut [u8]) -> Answer;
type Set = fn(&mut [u8], u32, u32, &[u8]) -> Answer;

/// The calls on states.
#[derive(Clone, Copy)]
pub struct SheetCalls {
    pub cpu_field: Get,
    pub mmu_field: Get,
    pub cpu_set: Set,
    pub mmu_set: Set,
    pub access: fn(u32) -> Access,
}

/// The reference's.
pub const REFERENCE: SheetCalls = SheetCalls {
    cpu_field: reference::cpu_field,
    mmu_field: reference::mmu_field,
    cpu_set: reference::cpu_set,
    mmu_set: reference::mmu_set,
    access: reference::access,
};

impl SheetCalls {
    fn get(self, kind: State) -> Get {
        match kind {
            State::Cpu => self.cpu_field,
            State::Mmu => self.mmu_field,
        }
    }

    fn set(self, kind: State) -> Set {
        match kind {
            State::Cpu => self.cpu_set,
            State::Mmu => self.mmu_set,
        }
    }
}

impl Comparison {
    /// A field read into `room` bytes: the answer, and all of those bytes.
    pub fn field(
        &mut self,
        kind: State,
        state: &[u8],
        field: u32,
        index: u32,
        room: usize,
    ) -> Answer {
        self.inputs += 1;
        self.calls += 1;
        let (get, want) = (self.sheets.get(kind), REFERENCE.get(kind));
        let (mut ours, mut theirs) = (vec![0xA5; room + 16], vec![0xA5; room + 16]);
        let given = get(state, field, index, &mut ours[8..8 + room]);
        let wanted = want(state, field, index, &mut theirs[8..8 + room]);
        let call = format!("{kind:?} field {field} {index} into {room}");
        if given != wanted || ours != theirs {
            self.fail(&call, &[state, &ours, &theirs], &format!("{given:?} {wanted:?}"));
        }
        self.answers.add(given.number);
        given
    }

    /// A field set: the answer, and all bytes of the state.
    pub fn set(
        &mut self,
        kind: State,
        state: &[u8],
        field: u32,
        index: u32,
        value: &[u8],
    ) -> Answer {
        self.inputs += 1;
        self.calls += 1;
        let (set, want) = (self.sheets.set(kind), REFERENCE.set(kind));
        let (mut ours, mut theirs) = (state.to_vec(), state.to_vec());
        let given = set(&mut ours, field, index, value);
        let wanted = want(&mut theirs, field, index, value);
        let call = format!("{kind:?} set {field} {index}");
        if given != wanted || ours != theirs {
            self.fail(&call, &[state, value, &ours, &theirs], &format!("{given:?} {wanted:?}"));
        }
        if given.number != 0 && ours != state {
            self.fail(&call, &[state, value, &ours], "a refused call changed the state");
        }
        self.answers.add(given.number);
        given
    }

    /// The parts of an access word.
    pub fn access(&mut self, word: u32) {
        self.inputs += 1;
        self.calls += 1;
        let (given, wanted) = ((self.sheets.access)(word), (REFERENCE.access)(word));
        if given != wanted {
            self.fail("access", &[&word.to_le_bytes()], &format!("{given:?} {wanted:?}"));
        }
    }
}
