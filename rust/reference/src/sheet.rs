//! CPU and MMU states of version 2, field by field in the order in which they are written.

use std::ops::Range;

use crate::answer::{answered, ask, Answer, Taken, ROOM, SHAPE, VALUE};
use crate::cursor::u32_at;

/// So many times these widths, one behind the other.
type Group = (usize, &'static [usize]);

/// A segment: selector, base, limit, access.
const SEGMENT: &[usize] = &[2, 8, 4, 4];

const CPU: &[Group] = &[
    (16, &[8]),   // RAX, RCX, RDX, RBX, RSP, RBP, RSI, RDI, R8 to R15
    (1, &[8]),    // RIP
    (1, &[8]),    // RFLAGS
    (1, &[1]),    // CPU_MODE
    (1, &[1]),    // HALTED
    (6, SEGMENT), // ES, CS, SS, DS, FS, GS
    (1, &[2]),    // fcw
    (1, &[2]),    // fsw
    (1, &[2]),    // ftw
    (1, &[1]),    // top
    (1, &[2]),    // fop
    (1, &[8]),    // fip
    (1, &[8]),    // fdp
    (1, &[2]),    // fcs
    (1, &[2]),    // fds
    (8, &[16]),   // st
    (1, &[4]),    // MXCSR
    (16, &[16]),  // XMM
    (1, &[512]),  // FXSAVE_AREA
];

/// Behind the extension's length: a20_enabled, irq13_pending, pending_bios_int_valid, pending_bios_int.
const EXTENSION: &[Group] = &[(1, &[1]), (1, &[1]), (1, &[1]), (1, &[1])];

const EXTENSION_LENGTH: usize = 4;

const MMU: &[Group] = &[
    (5, &[8]),    // CR0, CR2, CR3, CR4, CR8
    (8, &[8]),    // DR0 to DR7
    (13, &[8]),   // EFER to TSC
    (1, &[8]),    // GDTR_BASE
    (1, &[2]),    // GDTR_LIMIT
    (1, &[8]),    // IDTR_BASE
    (1, &[2]),    // IDTR_LIMIT
    (2, SEGMENT), // LDTR, TR
];

/// Where the fields stand: for each its places, one for each index.
type Fields = Vec<Vec<Range<usize>>>;

/// The fields of the groups from a place on, and where they end.
fn lay(fields: &mut Fields, groups: &[Group], mut at: usize) -> usize {
    for (times, widths) in groups {
        let first = fields.len();
        fields.extend(widths.iter().map(|_| vec![]));
        for _ in 0..*times {
            for (part, width) in widths.iter().enumerate() {
                fields[first + part].push(at..at + width);
                at += width;
            }
        }
    }
    at
}

/// The fields of a CPU state, or SHAPE where its length is wrong. A state longer than with the extension has as many
/// bytes behind the extension's length as that says.
fn cpu_fields(state: &[u8]) -> Taken<Fields> {
    let mut fields = vec![];
    let plain = lay(&mut fields, CPU, 0);
    if state.len() == plain {
        return Ok(fields);
    }
    let extended = lay(&mut fields, EXTENSION, plain + EXTENSION_LENGTH);
    ask(state.len() >= extended, SHAPE, 0)?;
    if state.len() > extended {
        let says = u32_at(state, plain) as u64;
        ask((state.len() - plain - EXTENSION_LENGTH) as u64 == says, SHAPE, 0)?;
    }
    Ok(fields)
}

fn mmu_fields(length: usize) -> Taken<Fields> {
    let mut fields = vec![];
    let whole = lay(&mut fields, MMU, 0);
    ask(length == whole, SHAPE, 0)?;
    Ok(fields)
}

/// The listed numbers of a CPU state, in the order in which they stand.
fn cpu_values(state: &[u8], fields: &Fields) -> Taken<()> {
    let at_most = |field: usize, most: u8| {
        let place = fields[field][0].start;
        ask(state[place] <= most, VALUE, place)
    };
    at_most(3, 3)?;
    at_most(4, 1)?;
    at_most(12, 7)?;
    if fields.len() > 22 {
        let place = fields[22][0].start - EXTENSION_LENGTH;
        let longer = state.len() > fields[25][0].end;
        ask(longer || state[place..place + 4] == [4, 0, 0, 0], VALUE, place)?;
        at_most(22, 1)?;
        at_most(23, 1)?;
        at_most(24, 1)?;
    }
    Ok(())
}

fn place(fields: &Fields, field: u32, index: u32) -> Taken<Range<usize>> {
    let places = fields.get(field as usize).and_then(|places| places.get(index as usize));
    places.cloned().ok_or(Answer { number: SHAPE, place: 0 })
}

fn hand(part: &[u8], out: &mut [u8]) -> Taken<usize> {
    ask(part.len() <= out.len(), ROOM, part.len())?;
    out[..part.len()].copy_from_slice(part);
    Ok(part.len())
}

/// The bytes of a field of a CPU state.
pub fn cpu_field(state: &[u8], field: u32, index: u32, out: &mut [u8]) -> Answer {
    let mut read = || {
        let fields = cpu_fields(state)?;
        let place = place(&fields, field, index)?;
        cpu_values(state, &fields)?;
        hand(&state[place], out)
    };
    answered(read())
}

/// The bytes of a field of an MMU state.
pub fn mmu_field(state: &[u8], field: u32, index: u32, out: &mut [u8]) -> Answer {
    let mut read = || {
        let fields = mmu_fields(state.len())?;
        hand(&state[place(&fields, field, index)?], out)
    };
    answered(read())
}

/// A field of a CPU state set, if the state is accepted then.
pub fn cpu_set(state: &mut [u8], field: u32, index: u32, value: &[u8]) -> Answer {
    let mut set = || {
        let fields = cpu_fields(state)?;
        let new = replaced(state, place(&fields, field, index)?, value)?;
        cpu_values(&new, &fields)?;
        state.copy_from_slice(&new);
        Ok(value.len())
    };
    answered(set())
}

/// A field of an MMU state set.
pub fn mmu_set(state: &mut [u8], field: u32, index: u32, value: &[u8]) -> Answer {
    let mut set = || {
        let fields = mmu_fields(state.len())?;
        let new = replaced(state, place(&fields, field, index)?, value)?;
        state.copy_from_slice(&new);
        Ok(value.len())
    };
    answered(set())
}

/// A copy of the state with the value at a place.
fn replaced(state: &[u8], place: Range<usize>, value: &[u8]) -> Taken<Vec<u8>> {
    ask(value.len() == place.len(), VALUE, place.start)?;
    let mut new = state.to_vec();
    new[place].copy_from_slice(value);
    Ok(new)
}

/// The parts of a segment's access word, each a number of its own, and the bits that are none of them.
#[derive(Clone, Copy, Debug, Default, PartialEq, Eq)]
pub struct Access {
    pub kind: u32,
    pub level: u32,
    pub present: u32,
    pub long_mode: u32,
    pub size: u32,
    pub granularity: u32,
    pub unusable: u32,
    pub rest: u32,
}

/// The parts of an access word, bit by bit.
pub fn access(word: u32) -> Access {
    let mut parts = Access::default();
    for bit in 0..32 {
        let set = word / 2u32.pow(bit) % 2;
        match bit {
            0..=3 => parts.kind += set * 2u32.pow(bit),
            5..=6 => parts.level += set * 2u32.pow(bit - 5),
            7 => parts.present = set,
            13 => parts.long_mode = set,
            14 => parts.size = set,
            15 => parts.granularity = set,
            16 => parts.unusable = set,
            _ => parts.rest += set * 2u32.pow(bit),
        }
    }
    parts
}
