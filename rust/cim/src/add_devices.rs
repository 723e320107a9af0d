//! `cim add-devices`: a snapshot with all devices of a list more, or with none of them.

use crate::card::{self, CARD};
use crate::command::{with, Command, JSON, KEEP};
use crate::failure::Failure;
use crate::files;
use crate::names::device_words;
use crate::shown::name_of;
use crate::words::{number_of, Words};
use cimbrolau::snapshot::{self, DeviceKey, NewDevice};
use cimbrolau::RefusedEntry;
use std::ffi::OsStr;
use std::os::unix::ffi::OsStrExt;

pub const COMMAND: Command = Command {
    name: "add-devices",
    usage: &["FILE OUT --from LIST"],
    about: "write it with all devices of a list more",
    help: "\
Writes the canonical form of the snapshot with all devices of LIST more to OUT, which may be FILE. LIST
is a text with a device on each line: its id, version and flags, and the file with its payload, which is
the rest of the line, parted by spaces or tabs:

  # id version flags payload
  4 1 0 level.bin
  0x100 1 0 display state.bin

Numbers are decimal, or hexadecimal behind 0x: the id up to 4294967295, version and flags up to 65535.
Empty lines and lines that begin with # say nothing. Names of files are those of any command: from the
folder in which it runs, and `-` is standard input. A list with no device gives the canonical form.

The devices are added as one by one, in the order of the list, but at once: the first that is refused is
told with its line, and nothing is written. A key that is there already, or on an earlier line, is HAVE.
",
    options: &[with("--from", "LIST", "the list of devices"), CARD, KEEP, JSON],
    run,
};

/// The most bytes that a list may have, and the most devices of it that are looked at: a snapshot has one less.
const MOST_LIST: u64 = 64 << 20;
const MOST_DEVICES: usize = 4097;

fn run(words: &Words) -> Result<(), Failure> {
    let [name, out] = words.plain("FILE and OUT")?;
    let from = words.needed("--from")?;
    let inputs = |lines: &[Line]| {
        let payloads = lines.iter().map(|line| line.payload);
        let dashes = [name, from].into_iter().chain(payloads).filter(|word| files::is_dash(word));
        match dashes.count() {
            0 | 1 => Ok(()),
            _ => Err(Failure::Usage("only one input can be standard input".into())),
        }
    };
    inputs(&[])?;
    let target = card::claim(words, out)?;
    let list = files::read(from, MOST_LIST)?;
    let lines = lines_of(&list).map_err(|(number, fault)| {
        Failure::Usage(format!("{}, line {number}: {fault}", name_of(from)))
    })?;
    inputs(&lines)?;
    let file = files::read(name, snapshot::MOST_BYTES)?;
    let (devices, store) = loaded(&lines)?;
    card::edit(words, &file, target, |it| {
        it.add_devices(&devices, &store).map_err(|refused| of_line(from, &lines, refused))
    })
}

/// A line of the list that names a device.
#[derive(Debug, PartialEq, Eq)]
struct Line<'a> {
    /// Its number in the list, from 1.
    number: usize,
    key: DeviceKey,
    /// The name of the file with the payload.
    payload: &'a OsStr,
}

/// The lines that name devices; or the first that is wrong, and why.
fn lines_of(list: &[u8]) -> Result<Vec<Line<'_>>, (usize, String)> {
    if list.len() as u64 > MOST_LIST {
        return Err((1, format!("the list has more than {MOST_LIST} bytes")));
    }
    let lines = list.split(|byte| *byte == b'\n').map(<[u8]>::trim_ascii).zip(1..);
    let named = lines.filter(|(line, _)| !line.is_empty() && !line.starts_with(b"#"));
    named.map(|(line, number)| line_of(line, number).map_err(|fault| (number, fault))).collect()
}

fn line_of(line: &[u8], number: usize) -> Result<Line<'_>, String> {
    let mut rest = line;
    let id = taken(&mut rest, u32::MAX)?;
    let version = taken(&mut rest, u16::MAX.into())? as u16;
    let flags = taken(&mut rest, u16::MAX.into())? as u16;
    if rest.is_empty() {
        return Err("the file with the payload is missing".into());
    }
    Ok(Line { number, key: DeviceKey { id, version, flags }, payload: OsStr::from_bytes(rest) })
}

/// Takes the next word of a line, which has to be a number, and the blanks behind it.
fn taken(rest: &mut &[u8], most: u32) -> Result<u32, String> {
    let end = rest.iter().position(u8::is_ascii_whitespace).unwrap_or(rest.len());
    let (word, behind) = rest.split_at(end);
    *rest = behind.trim_ascii_start();
    let word = OsStr::from_bytes(word);
    if word.is_empty() {
        return Err("id, version, flags and the file with the payload are wanted".into());
    }
    number_of(word)
        .filter(|number| *number <= most)
        .ok_or_else(|| format!("`{}` is no number from 0 to {most}", name_of(word)))
}

/// The devices of the lines, and their payloads one behind the other. What comes behind more devices, or more bytes, than a
/// snapshot has is not read: the library refuses what was read.
fn loaded(lines: &[Line]) -> Result<(Vec<NewDevice>, Vec<u8>), Failure> {
    let (mut devices, mut store) = (Vec::new(), Vec::new());
    for line in lines.iter().take(MOST_DEVICES) {
        let payload = files::read(line.payload, snapshot::MOST_PAYLOAD_BYTES)?;
        let DeviceKey { id, version, flags } = line.key;
        let (place, length) = (store.len() as u64, payload.len() as u64);
        devices.push(NewDevice { id, version, flags, place, length });
        store.try_reserve(payload.len()).map_err(|_| {
            Failure::Io(format!("out of memory: the payloads take {} bytes", place + length))
        })?;
        store.extend(payload);
        if store.len() as u64 > snapshot::MOST_DEVICES_BYTES {
            break;
        }
    }
    Ok((devices, store))
}

/// A refusal of an entry, told with its line. The snapshot itself is taken before.
fn of_line(from: &OsStr, lines: &[Line], refused: RefusedEntry) -> Failure {
    let RefusedEntry { index, refusal } = refused;
    match lines.get(index as usize) {
        Some(line) => Failure::from(refusal)
            .named(&name_of(from))
            .on_line(line.number)
            .lying(Some(device_words(line.key))),
        None => refusal.into(),
    }
}

#[cfg(test)]
mod tests {
    use super::*;

    #[test]
    fn lines_are_numbers_and_a_name() {
        let list = b"\n# id version flags payload\n 4\t1 0  level.bin \r\n\n0x100 65535 0 a b\n";
        let line = |number, key: (u32, u16, u16), payload: &'static str| Line {
            number,
            key: key.into(),
            payload: OsStr::new(payload),
        };
        let lines = vec![line(3, (4, 1, 0), "level.bin"), line(5, (256, 65535, 0), "a b")];
        assert_eq!(lines_of(list), Ok(lines));
        assert_eq!(lines_of(b""), Ok(vec![]));
        assert_eq!(lines_of(b"1 2 3 #"), Ok(vec![line(1, (1, 2, 3), "#")]));
    }

    #[test]
    fn a_wrong_line_is_named() {
        let wanted = "id, version, flags and the file with the payload are wanted";
        for (list, number, fault) in [
            ("1 1 0 a\n4", 2, wanted),
            ("4 1", 1, wanted),
            ("4 1 0", 1, "the file with the payload is missing"),
            ("#\n\n4 1 0 \n", 3, "the file with the payload is missing"),
            ("4294967296 1 0 a", 1, "`4294967296` is no number from 0 to 4294967295"),
            ("4 65536 0 a", 1, "`65536` is no number from 0 to 65535"),
            ("4 1 0x10000 a", 1, "`0x10000` is no number from 0 to 65535"),
            ("4 1 level.bin", 1, "`level.bin` is no number from 0 to 65535"),
            ("-4 1 0 a", 1, "`-4` is no number from 0 to 4294967295"),
        ] {
            assert_eq!(lines_of(list.as_bytes()), Err((number, fault.to_string())), "{list:?}");
        }
    }
}
