//! Messages: the commands and events with their fields.

use crate::raw::{self, Numbers};
use crate::records;
use crate::refusal::{filled, outcome, Kind, Refusal, Result};

/// The level of a log message.
#[derive(Clone, Copy, Debug, PartialEq, Eq, Hash, PartialOrd, Ord)]
#[repr(u8)]
pub enum Level {
    /// Level 0.
    Trace = 0,
    /// Level 1.
    Debug = 1,
    /// Level 2.
    Info = 2,
    /// Level 3.
    Warn = 3,
    /// Level 4.
    Error = 4,
}

impl Level {
    /// The level of a number, if there is one.
    ///
    /// ```
    /// use cimbrolau::Level;
    /// assert_eq!(Level::of(3), Some(Level::Warn));
    /// assert_eq!(Level::of(5), None);
    /// ```
    pub fn of(number: u64) -> Option<Level> {
        [Level::Trace, Level::Debug, Level::Info, Level::Warn, Level::Error]
            .into_iter()
            .find(|level| *level as u64 == number)
    }
}

/// A command or an event. Its data or text is a part of the bytes that it was read from.
///
/// The types leave no room for numbers that writing would refuse: `ok` of a disk's response is 1 exactly if it has no
/// error, a level is one of five, a text is UTF-8.
///
/// ```
/// use cimbrolau::Message;
/// let bytes = [0x01, 0x11, 7, 0, 0, 0, 15, 0, 0, 0];
/// let message = Message::read(&bytes)?;
/// assert_eq!(message, Message::PortReadResp { id: 7, value: 15 });
/// assert_eq!(message.write()?, bytes);
/// # Ok::<(), cimbrolau::Refusal>(())
/// ```
#[derive(Clone, Copy, Debug, PartialEq, Eq, Hash)]
#[allow(missing_docs)] // the names of the fields are those of the protocol
pub enum Message<'a> {
    /// 0x0000, a command that asks for nothing but [`Message::Ack`].
    Nop { seq: u32 },
    /// 0x0001
    Shutdown,
    /// 0x0100
    MmioRead { id: u32, addr: u64, size: u32 },
    /// 0x0101
    MmioWrite { id: u32, addr: u64, data: &'a [u8] },
    /// 0x0102
    PortRead { id: u32, port: u16, size: u32 },
    /// 0x0103
    PortWrite { id: u32, port: u16, size: u32, value: u32 },
    /// 0x0104
    DiskRead { id: u32, disk_offset: u64, len: u32, guest_offset: u64 },
    /// 0x0105
    DiskWrite { id: u32, disk_offset: u64, len: u32, guest_offset: u64 },
    /// 0x1000
    Ack { seq: u32 },
    /// 0x1100
    MmioReadResp { id: u32, data: &'a [u8] },
    /// 0x1101
    PortReadResp { id: u32, value: u32 },
    /// 0x1102
    MmioWriteResp { id: u32 },
    /// 0x1103
    PortWriteResp { id: u32 },
    /// 0x1104; `ok` is 1 where there is no error.
    DiskReadResp { id: u32, bytes: u32, error: Option<u32> },
    /// 0x1105; `ok` is 1 where there is no error.
    DiskWriteResp { id: u32, bytes: u32, error: Option<u32> },
    /// 0x1200
    FrameReady { frame_id: u64 },
    /// 0x1300
    IrqRaise { irq: u8 },
    /// 0x1301
    IrqLower { irq: u8 },
    /// 0x1302
    A20Set { enabled: bool },
    /// 0x1303
    ResetRequest,
    /// 0x1400
    Log { level: Level, text: &'a str },
    /// 0x1500
    SerialOutput { port: u16, data: &'a [u8] },
    /// 0x1FFE
    Panic { text: &'a str },
    /// 0x1FFF
    TripleFault,
}

/// A row of the protocol's table, filled: the tag and the numbers as the library takes them (0 where there is none), and
/// what people call them. Where there are fewer names than numbers, the others are not there.
struct Row {
    tag: u16,
    name: &'static str,
    fields: &'static [&'static str],
    numbers: [u64; 4],
}

fn row(tag: u16, name: &'static str, fields: &'static [&'static str], numbers: [u64; 4]) -> Row {
    Row { tag, name, fields, numbers }
}

impl<'a> Message<'a> {
    /// The most bytes a message has; a longer one is LIMIT.
    pub const MOST_BYTES: u64 = 65_536;

    /// Reads a message, which is all of `bytes`.
    ///
    /// ```
    /// use cimbrolau::{Kind, Message};
    /// let mut bytes = [0x04, 0x11, 9, 0, 0, 0, 0, 0, 0, 0, 0, 2, 0, 0, 0];
    /// assert_eq!(Message::read(&bytes)?, Message::DiskReadResp { id: 9, bytes: 0, error: Some(2) });
    ///
    /// bytes[6] = 2; // `ok` is 0 or 1
    /// let refusal = Message::read(&bytes).unwrap_err();
    /// assert_eq!((refusal.kind, refusal.place), (Kind::Value, 6));
    /// # Ok::<(), cimbrolau::Refusal>(())
    /// ```
    pub fn read(bytes: &'a [u8]) -> Result<Message<'a>> {
        let read = raw::message_read(bytes);
        outcome(read.number, read.place)?;
        let data = records::part(bytes, read.data_place, read.data_length)
            .expect("the data of a message that was taken stands inside it");
        message_of(&read, data)
    }

    /// The message's bytes. Only a message of more than 65,536 bytes is refused, as LIMIT.
    ///
    /// ```
    /// use cimbrolau::{Kind, Level, Message};
    /// let message = Message::Log { level: Level::Warn, text: "tank 15" };
    /// assert_eq!(message.write()?, b"\x00\x14\x03\x07\x00\x00\x00tank 15");
    ///
    /// let long = "x".repeat(65_536);
    /// let refusal = Message::Panic { text: &long }.write().unwrap_err();
    /// assert_eq!(refusal.kind, Kind::Limit);
    /// # Ok::<(), cimbrolau::Refusal>(())
    /// ```
    pub fn write(&self) -> Result<Vec<u8>> {
        // A tag, at most four numbers of 8 bytes, a length, and the data.
        let most = 2 + 4 * 8 + 4 + self.data().map_or(0, <[u8]>::len);
        filled(most.min(Self::MOST_BYTES as usize), |out| self.written(out))
    }

    /// Writes the message to the start of `out`, and answers how many bytes it has. A buffer that is too short is ROOM,
    /// with the length needed.
    ///
    /// ```
    /// use cimbrolau::{Kind, Message, Refusal};
    /// let mut out = [0; 8];
    /// assert_eq!(Message::Ack { seq: 15 }.write_to(&mut out)?, 6);
    /// assert_eq!(out, [0x00, 0x10, 15, 0, 0, 0, 0, 0]);
    ///
    /// let refusal = Message::FrameReady { frame_id: 1 }.write_to(&mut out).unwrap_err();
    /// assert_eq!(refusal, Refusal { kind: Kind::Room, place: 10 });
    /// # Ok::<(), cimbrolau::Refusal>(())
    /// ```
    pub fn write_to(&self, out: &mut [u8]) -> Result<usize> {
        let answer = self.written(out);
        Ok(outcome(answer.number, answer.place)? as usize)
    }

    /// The message's tag.
    ///
    /// ```
    /// assert_eq!(cimbrolau::Message::TripleFault.tag(), 0x1FFF);
    /// ```
    pub fn tag(&self) -> u16 {
        self.row().tag
    }

    /// The name of the message's kind.
    ///
    /// ```
    /// assert_eq!(cimbrolau::Message::TripleFault.name(), "TripleFault");
    /// ```
    pub fn name(&self) -> &'static str {
        self.row().name
    }

    /// The message's numbers with their names, in the order of its fields; its data apart.
    ///
    /// ```
    /// use cimbrolau::Message;
    /// let failed = Message::DiskReadResp { id: 9, bytes: 0, error: Some(2) };
    /// assert_eq!(failed.numbers(), [("id", 9), ("ok", 0), ("bytes", 0), ("error_code", 2)]);
    ///
    /// let fine = Message::DiskReadResp { id: 9, bytes: 512, error: None };
    /// assert_eq!(fine.numbers(), [("id", 9), ("ok", 1), ("bytes", 512)]);
    /// ```
    pub fn numbers(&self) -> Vec<(&'static str, u64)> {
        let row = self.row();
        row.fields.iter().copied().zip(row.numbers).collect()
    }

    /// The message's data or text, in bytes; none for a kind that has none.
    ///
    /// ```
    /// use cimbrolau::Message;
    /// assert_eq!(Message::Panic { text: "" }.data(), Some(&b""[..]));
    /// assert_eq!(Message::TripleFault.data(), None);
    /// ```
    pub fn data(&self) -> Option<&'a [u8]> {
        match *self {
            Message::MmioWrite { data, .. } => Some(data),
            Message::MmioReadResp { data, .. } => Some(data),
            Message::SerialOutput { data, .. } => Some(data),
            Message::Log { text, .. } => Some(text.as_bytes()),
            Message::Panic { text } => Some(text.as_bytes()),
            _ => None,
        }
    }

    fn written(&self, out: &mut [u8]) -> raw::Answer {
        let Row { tag, numbers: [a, b, c, d], .. } = self.row();
        raw::message_write(u32::from(tag), a, b, c, d, self.data().unwrap_or(&[]), out)
    }

    /// The row of the protocol's table that the message fills.
    fn row(&self) -> Row {
        match *self {
            Message::Nop { seq } => row(0x0000, "Nop", &["seq"], [seq.into(), 0, 0, 0]),
            Message::Shutdown => row(0x0001, "Shutdown", &[], [0; 4]),
            Message::MmioRead { id, addr, size } => {
                row(0x0100, "MmioRead", &["id", "addr", "size"], [id.into(), addr, size.into(), 0])
            }
            Message::MmioWrite { id, addr, .. } => {
                row(0x0101, "MmioWrite", &["id", "addr"], [id.into(), addr, 0, 0])
            }
            Message::PortRead { id, port, size } => {
                let numbers = [id.into(), port.into(), size.into(), 0];
                row(0x0102, "PortRead", &["id", "port", "size"], numbers)
            }
            Message::PortWrite { id, port, size, value } => {
                let numbers = [id.into(), port.into(), size.into(), value.into()];
                row(0x0103, "PortWrite", &["id", "port", "size", "value"], numbers)
            }
            Message::DiskRead { id, disk_offset, len, guest_offset } => row(
                0x0104,
                "DiskRead",
                TRANSFER,
                [id.into(), disk_offset, len.into(), guest_offset],
            ),
            Message::DiskWrite { id, disk_offset, len, guest_offset } => row(
                0x0105,
                "DiskWrite",
                TRANSFER,
                [id.into(), disk_offset, len.into(), guest_offset],
            ),
            Message::Ack { seq } => row(0x1000, "Ack", &["seq"], [seq.into(), 0, 0, 0]),
            Message::MmioReadResp { id, .. } => {
                row(0x1100, "MmioReadResp", &["id"], [id.into(), 0, 0, 0])
            }
            Message::PortReadResp { id, value } => {
                row(0x1101, "PortReadResp", &["id", "value"], [id.into(), value.into(), 0, 0])
            }
            Message::MmioWriteResp { id } => {
                row(0x1102, "MmioWriteResp", &["id"], [id.into(), 0, 0, 0])
            }
            Message::PortWriteResp { id } => {
                row(0x1103, "PortWriteResp", &["id"], [id.into(), 0, 0, 0])
            }
            Message::DiskReadResp { id, bytes, error } => {
                let (fields, numbers) = response(id, bytes, error);
                row(0x1104, "DiskReadResp", fields, numbers)
            }
            Message::DiskWriteResp { id, bytes, error } => {
                let (fields, numbers) = response(id, bytes, error);
                row(0x1105, "DiskWriteResp", fields, numbers)
            }
            Message::FrameReady { frame_id } => {
                row(0x1200, "FrameReady", &["frame_id"], [frame_id, 0, 0, 0])
            }
            Message::IrqRaise { irq } => row(0x1300, "IrqRaise", &["irq"], [irq.into(), 0, 0, 0]),
            Message::IrqLower { irq } => row(0x1301, "IrqLower", &["irq"], [irq.into(), 0, 0, 0]),
            Message::A20Set { enabled } => {
                row(0x1302, "A20Set", &["enabled"], [enabled.into(), 0, 0, 0])
            }
            Message::ResetRequest => row(0x1303, "ResetRequest", &[], [0; 4]),
            Message::Log { level, .. } => row(0x1400, "Log", &["level"], [level as u64, 0, 0, 0]),
            Message::SerialOutput { port, .. } => {
                row(0x1500, "SerialOutput", &["port"], [port.into(), 0, 0, 0])
            }
            Message::Panic { .. } => row(0x1FFE, "Panic", &[], [0; 4]),
            Message::TripleFault => row(0x1FFF, "TripleFault", &[], [0; 4]),
        }
    }
}

/// The numbers of a disk's command.
const TRANSFER: &[&str] = &["id", "disk_offset", "len", "guest_offset"];

/// The numbers of a disk's response; the error code is there exactly if `ok` is 0.
const RESPONSE: &[&str] = &["id", "ok", "bytes", "error_code"];

fn response(id: u32, bytes: u32, error: Option<u32>) -> (&'static [&'static str], [u64; 4]) {
    match error {
        Some(error) => (RESPONSE, [id.into(), 0, bytes.into(), error.into()]),
        None => (&RESPONSE[..3], [id.into(), 1, bytes.into(), 0]),
    }
}

/// The error of a disk's response, which is there exactly if `ok` is 0.
fn error_of(read: &Numbers) -> Option<u32> {
    (read.b == 0).then_some(read.d as u32)
}

/// The data as a text. The library took it as UTF-8; were the two ever to differ, it would be refused as a text that is not.
fn text_of<'a>(read: &Numbers, data: &'a [u8]) -> Result<&'a str> {
    std::str::from_utf8(data).map_err(|_| Refusal { kind: Kind::Text, place: read.data_place })
}

/// The level of a log message, which stands at byte 2. The library took it as one of five.
fn level_of(read: &Numbers) -> Result<Level> {
    Level::of(read.a).ok_or(Refusal { kind: Kind::Value, place: 2 })
}

/// A message that was taken, by its tag. Each number fits its field, so that no cast cuts it.
fn message_of<'a>(read: &Numbers, data: &'a [u8]) -> Result<Message<'a>> {
    let Numbers { tag, a, b, c, d, .. } = *read;
    let id = a as u32;
    Ok(match tag {
        0x0000 => Message::Nop { seq: id },
        0x0001 => Message::Shutdown,
        0x0100 => Message::MmioRead { id, addr: b, size: c as u32 },
        0x0101 => Message::MmioWrite { id, addr: b, data },
        0x0102 => Message::PortRead { id, port: b as u16, size: c as u32 },
        0x0103 => Message::PortWrite { id, port: b as u16, size: c as u32, value: d as u32 },
        0x0104 => Message::DiskRead { id, disk_offset: b, len: c as u32, guest_offset: d },
        0x0105 => Message::DiskWrite { id, disk_offset: b, len: c as u32, guest_offset: d },
        0x1000 => Message::Ack { seq: id },
        0x1100 => Message::MmioReadResp { id, data },
        0x1101 => Message::PortReadResp { id, value: b as u32 },
        0x1102 => Message::MmioWriteResp { id },
        0x1103 => Message::PortWriteResp { id },
        0x1104 => Message::DiskReadResp { id, bytes: c as u32, error: error_of(read) },
        0x1105 => Message::DiskWriteResp { id, bytes: c as u32, error: error_of(read) },
        0x1200 => Message::FrameReady { frame_id: a },
        0x1300 => Message::IrqRaise { irq: a as u8 },
        0x1301 => Message::IrqLower { irq: a as u8 },
        0x1302 => Message::A20Set { enabled: a == 1 },
        0x1303 => Message::ResetRequest,
        0x1400 => Message::Log { level: level_of(read)?, text: text_of(read, data)? },
        0x1500 => Message::SerialOutput { port: a as u16, data },
        0x1FFE => Message::Panic { text: text_of(read, data)? },
        0x1FFF => Message::TripleFault,
        _ => return Err(Refusal { kind: Kind::Tag, place: 0 }),
    })
}
