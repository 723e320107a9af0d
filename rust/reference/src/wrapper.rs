//! Disk-controller wrappers: `AERO`, 1, 0, `DSKC`, 1, 0, and a list of controllers.

use crate::answer::{answered, ask, Answer, Taken, MAGIC, SHORT, SIZE, VERSION};
use crate::cursor::{u32_at, Cursor, Output};
use crate::list::{read_list, record, write_table, Entry, Kind, List, RECORD};

const MOST_WRAPPER: usize = 64 << 20;
const HEADER: &[u8; 16] = b"AERO\x01\x00\x00\x00DSKC\x01\x00\x00\x00";

/// Checks a wrapper.
pub fn wrapper_check(wrapper: &[u8]) -> Answer {
    answered(read_wrapper(wrapper).map(|_| 0))
}

/// Writes a record for each controller, in address order.
pub fn controllers(wrapper: &[u8], table: &mut [u8]) -> Answer {
    answered(read_wrapper(wrapper).and_then(|list| write_table(&list, controller_record, table)))
}

/// Writes the wrapper with its controllers in address order.
pub fn wrapper_canonical(wrapper: &[u8], out: &mut [u8]) -> Answer {
    answered(read_wrapper(wrapper).and_then(|list| write_wrapper(&list, wrapper.len(), out)))
}

fn read_wrapper(wrapper: &[u8]) -> Taken<List<'_>> {
    ask(wrapper.len() <= MOST_WRAPPER, SIZE, 0)?;
    ask(wrapper.len() >= HEADER.len(), SHORT, 0)?;
    for (at, number) in [(0, MAGIC), (4, VERSION), (8, MAGIC), (12, VERSION)] {
        ask(wrapper[at..at + 4] == HEADER[at..at + 4], number, at)?;
    }
    let mut cursor = Cursor::new(wrapper, HEADER.len(), wrapper.len());
    let list = read_list(Kind::Controllers, &mut cursor)?;
    cursor.finish()?;
    Ok(list)
}

/// u16 address, u16 0 and the four tag bytes stand so in the entry; then the payload's place and length.
fn controller_record(entry: Entry) -> [u8; RECORD] {
    let length = u32_at(entry.bytes, 8);
    record(&entry.bytes[..8], entry.start as u64 + 12, u64::from(length), entry.position)
}

/// Nothing is left out and nothing added, so the form is as long as the wrapper.
fn write_wrapper(list: &List, needed: usize, out: &mut [u8]) -> Taken<usize> {
    let mut output = Output::with_room(out, needed)?;
    output.put(HEADER);
    output.put(&(list.len() as u32).to_le_bytes());
    for entry in list {
        output.put(entry.bytes);
    }
    Ok(needed)
}
