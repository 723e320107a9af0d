//! Errors in fields of states, and in access words.

use reference::answer::{ROOM, VALUE};
use reference::{Access, Answer};

use crate::sheets::{SheetCalls, REFERENCE};

/// All of them, by name.
pub const ALL: &[(&str, SheetCalls)] = &[
    ("an_index_too_many", AN_INDEX_TOO_MANY),
    ("a_segment_of_its_neighbour", A_SEGMENT_OF_ITS_NEIGHBOUR),
    ("an_extension_that_is_always_there", AN_EXTENSION_THAT_IS_ALWAYS_THERE),
    ("a_state_that_is_not_judged", A_STATE_THAT_IS_NOT_JUDGED),
    ("a_longer_state_that_is_not_asked", A_LONGER_STATE_THAT_IS_NOT_ASKED),
    ("room_before_the_values", ROOM_BEFORE_THE_VALUES),
    ("a_value_that_is_cut", A_VALUE_THAT_IS_CUT),
    ("a_refused_value_that_stays", A_REFUSED_VALUE_THAT_STAYS),
    ("a_value_out_of_its_range", A_VALUE_OUT_OF_ITS_RANGE),
    ("bytes_past_1191_that_are_cleared", BYTES_PAST_1191_THAT_ARE_CLEARED),
    ("an_mmu_limit_of_four_bytes", AN_MMU_LIMIT_OF_FOUR_BYTES),
    ("an_mmu_set_that_does_nothing", AN_MMU_SET_THAT_DOES_NOTHING),
];

/// Those of access words.
pub const WORDS: &[(&str, SheetCalls)] =
    &[("a_level_of_one_bit", A_LEVEL_OF_ONE_BIT), ("a_rest_that_is_lost", A_REST_THAT_IS_LOST)];

/// How many general registers there are, and the field of what stands behind them.
const GPRS: u32 = 16;
const RIP: u32 = 1;

/// Bases of segments, and the first field of the extension.
const BASE: u32 = 6;
const A20: u32 = 22;

/// Where a listed number is judged first, and where the extension's length stands.
const MODE: usize = 144;
const EXTENSION: usize = 1183;
const EXTENDED: usize = 1191;

/// Register 16 is the one behind the last.
pub const AN_INDEX_TOO_MANY: SheetCalls = SheetCalls {
    cpu_field: |state: &[u8], field, index, out: &mut [u8]| match (field, index) {
        (0, GPRS) => reference::cpu_field(state, RIP, 0, out),
        _ => reference::cpu_field(state, field, index, out),
    },
    ..REFERENCE
};

/// The base of a segment is the next one's.
pub const A_SEGMENT_OF_ITS_NEIGHBOUR: SheetCalls = SheetCalls {
    cpu_field: |state: &[u8], field, index, out: &mut [u8]| match (field, index) {
        (BASE, 0..5) => reference::cpu_field(state, BASE, index + 1, out),
        _ => reference::cpu_field(state, field, index, out),
    },
    ..REFERENCE
};

/// A state without the extension has one of zeros.
pub const AN_EXTENSION_THAT_IS_ALWAYS_THERE: SheetCalls = SheetCalls {
    cpu_field: |state: &[u8], field, index, out: &mut [u8]| {
        if field < A20 || state.len() != EXTENSION {
            return reference::cpu_field(state, field, index, out);
        }
        let mut longer = state.to_vec();
        longer.extend([4, 0, 0, 0, 0, 0, 0, 0]);
        reference::cpu_field(&longer, field, index, out)
    },
    ..REFERENCE
};

/// A state is read whatever its mode is.
pub const A_STATE_THAT_IS_NOT_JUDGED: SheetCalls = SheetCalls {
    cpu_field: |state: &[u8], field, index, out: &mut [u8]| match reference::cpu_field(
        state, field, index, out,
    ) {
        Answer { number: VALUE, place: 144 } => {
            let mut other = state.to_vec();
            other[MODE] = 0;
            reference::cpu_field(&other, field, index, out)
        }
        answer => answer,
    },
    ..REFERENCE
};

/// A state above 1191 bytes is taken whatever its extension's length says.
pub const A_LONGER_STATE_THAT_IS_NOT_ASKED: SheetCalls = SheetCalls {
    cpu_field: |state: &[u8], field, index, out: &mut [u8]| {
        let mut other = state.to_vec();
        if state.len() > EXTENDED {
            let says = state.len() as u32 - 1187;
            other[EXTENSION..EXTENSION + 4].copy_from_slice(&says.to_le_bytes());
        }
        reference::cpu_field(&other, field, index, out)
    },
    ..REFERENCE
};

/// The room is asked before the state's values.
pub const ROOM_BEFORE_THE_VALUES: SheetCalls = SheetCalls {
    cpu_field: |state: &[u8], field, index, out: &mut [u8]| match reference::cpu_field(
        state, field, index, out,
    ) {
        Answer { number: VALUE, .. } if out.is_empty() => Answer { number: ROOM, place: 1 },
        answer => answer,
    },
    ..REFERENCE
};

/// A value that is too long is cut to the field's width.
pub const A_VALUE_THAT_IS_CUT: SheetCalls = SheetCalls {
    cpu_set: |state: &mut [u8], field, index, value: &[u8]| match field {
        RIP if value.len() > 8 => reference::cpu_set(state, field, index, &value[..8]),
        _ => reference::cpu_set(state, field, index, value),
    },
    ..REFERENCE
};

/// What a refused set wrote is left there.
pub const A_REFUSED_VALUE_THAT_STAYS: SheetCalls = SheetCalls {
    cpu_set: |state: &mut [u8], field, index, value: &[u8]| {
        let answer = reference::cpu_set(state, field, index, value);
        if let (Answer { number: VALUE, place: 144 }, [mode]) = (answer, value) {
            state[MODE] = *mode;
        }
        answer
    },
    ..REFERENCE
};

/// A mode from 4 to 127 is taken.
pub const A_VALUE_OUT_OF_ITS_RANGE: SheetCalls = SheetCalls {
    cpu_set: |state: &mut [u8], field, index, value: &[u8]| match (
        reference::cpu_set(state, field, index, value),
        value,
    ) {
        (Answer { number: VALUE, place: 144 }, [mode @ 4..128]) => {
            state[MODE] = *mode;
            Answer { number: 0, place: 1 }
        }
        (answer, _) => answer,
    },
    ..REFERENCE
};

/// A set clears the last byte of a longer state.
pub const BYTES_PAST_1191_THAT_ARE_CLEARED: SheetCalls = SheetCalls {
    cpu_set: |state: &mut [u8], field, index, value: &[u8]| {
        let answer = reference::cpu_set(state, field, index, value);
        if let (0, Some(last)) =
            (answer.number, state.get_mut(EXTENDED..).and_then(<[u8]>::last_mut))
        {
            *last = 0;
        }
        answer
    },
    ..REFERENCE
};

/// The limit of GDTR has four bytes.
pub const AN_MMU_LIMIT_OF_FOUR_BYTES: SheetCalls = SheetCalls {
    mmu_field: |state: &[u8], field, index, out: &mut [u8]| match reference::mmu_field(
        state, field, index, out,
    ) {
        Answer { number: 0, .. } if field == 4 && out.len() >= 4 => {
            out[..4].copy_from_slice(&state[216..220]);
            Answer { number: 0, place: 4 }
        }
        answer => answer,
    },
    ..REFERENCE
};

/// A set of an MMU's field says that it was done.
pub const AN_MMU_SET_THAT_DOES_NOTHING: SheetCalls = SheetCalls {
    mmu_set: |state: &mut [u8], field, index, value: &[u8]| {
        reference::mmu_set(&mut state.to_vec(), field, index, value)
    },
    ..REFERENCE
};

/// Of the level only the low bit is told.
pub const A_LEVEL_OF_ONE_BIT: SheetCalls = SheetCalls {
    access: |word| {
        let parts = reference::access(word);
        Access { level: parts.level & 1, ..parts }
    },
    ..REFERENCE
};

/// Bits that belong to no part are not told.
pub const A_REST_THAT_IS_LOST: SheetCalls =
    SheetCalls { access: |word| Access { rest: 0, ..reference::access(word) }, ..REFERENCE };
