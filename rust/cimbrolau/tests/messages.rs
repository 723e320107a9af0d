//! Every kind of message, byte by byte, there and back.

use cimbrolau::{Kind, Level, Message, Refusal};

/// Each kind with its bytes, in the order of the protocol's tables.
const KINDS: [(Message, &str, &[u8]); 26] = [
    (Message::Nop { seq: 0x04030201 }, "Nop", b"\x00\x00\x01\x02\x03\x04"),
    (Message::Shutdown, "Shutdown", b"\x01\x00"),
    (
        Message::MmioRead { id: 7, addr: 0x0807060504030201, size: 4 },
        "MmioRead",
        b"\x00\x01\x07\0\0\0\x01\x02\x03\x04\x05\x06\x07\x08\x04\0\0\0",
    ),
    (
        Message::MmioWrite { id: 7, addr: 256, data: b"abc" },
        "MmioWrite",
        b"\x01\x01\x07\0\0\0\0\x01\0\0\0\0\0\0\x03\0\0\0abc",
    ),
    (
        Message::PortRead { id: 7, port: 0x03F8, size: 1 },
        "PortRead",
        b"\x02\x01\x07\0\0\0\xF8\x03\x01\0\0\0",
    ),
    (
        Message::PortWrite { id: 7, port: 0x03F8, size: 1, value: 65 },
        "PortWrite",
        b"\x03\x01\x07\0\0\0\xF8\x03\x01\0\0\0\x41\0\0\0",
    ),
    (
        Message::DiskRead { id: 7, disk_offset: 512, len: 16, guest_offset: 4096 },
        "DiskRead",
        b"\x04\x01\x07\0\0\0\0\x02\0\0\0\0\0\0\x10\0\0\0\0\x10\0\0\0\0\0\0",
    ),
    (
        Message::DiskWrite { id: 7, disk_offset: 512, len: 16, guest_offset: 4096 },
        "DiskWrite",
        b"\x05\x01\x07\0\0\0\0\x02\0\0\0\0\0\0\x10\0\0\0\0\x10\0\0\0\0\0\0",
    ),
    (Message::Ack { seq: 15 }, "Ack", b"\x00\x10\x0F\0\0\0"),
    (
        Message::MmioReadResp { id: 7, data: b"\xFF\0" },
        "MmioReadResp",
        b"\x00\x11\x07\0\0\0\x02\0\0\0\xFF\0",
    ),
    (Message::PortReadResp { id: 7, value: 15 }, "PortReadResp", b"\x01\x11\x07\0\0\0\x0F\0\0\0"),
    (Message::MmioWriteResp { id: 7 }, "MmioWriteResp", b"\x02\x11\x07\0\0\0"),
    (Message::PortWriteResp { id: 7 }, "PortWriteResp", b"\x03\x11\x07\0\0\0"),
    (
        Message::DiskReadResp { id: 9, bytes: 0, error: Some(2) },
        "DiskReadResp",
        b"\x04\x11\x09\0\0\0\0\0\0\0\0\x02\0\0\0",
    ),
    (
        Message::DiskReadResp { id: 9, bytes: 512, error: None },
        "DiskReadResp",
        b"\x04\x11\x09\0\0\0\x01\0\x02\0\0",
    ),
    (
        Message::DiskWriteResp { id: 9, bytes: 0, error: Some(0) },
        "DiskWriteResp",
        b"\x05\x11\x09\0\0\0\0\0\0\0\0\0\0\0\0",
    ),
    (
        Message::DiskWriteResp { id: 9, bytes: 512, error: None },
        "DiskWriteResp",
        b"\x05\x11\x09\0\0\0\x01\0\x02\0\0",
    ),
    (
        Message::FrameReady { frame_id: 0x0807060504030201 },
        "FrameReady",
        b"\x00\x12\x01\x02\x03\x04\x05\x06\x07\x08",
    ),
    (Message::IrqRaise { irq: 255 }, "IrqRaise", b"\x00\x13\xFF"),
    (Message::IrqLower { irq: 1 }, "IrqLower", b"\x01\x13\x01"),
    (Message::A20Set { enabled: true }, "A20Set", b"\x02\x13\x01"),
    (Message::ResetRequest, "ResetRequest", b"\x03\x13"),
    (
        Message::Log { level: Level::Error, text: "tank é" },
        "Log",
        b"\x00\x14\x04\x07\0\0\0tank \xC3\xA9",
    ),
    (
        Message::SerialOutput { port: 0x03F8, data: b"" },
        "SerialOutput",
        b"\x00\x15\xF8\x03\0\0\0\0",
    ),
    (Message::Panic { text: "" }, "Panic", b"\xFE\x1F\0\0\0\0"),
    (Message::TripleFault, "TripleFault", b"\xFF\x1F"),
];

#[test]
fn every_kind_reads_and_writes() {
    for (message, name, bytes) in KINDS {
        assert_eq!(Message::read(bytes), Ok(message), "{name}");
        assert_eq!(message.write().as_deref(), Ok(bytes), "{name}");
        assert_eq!(message.name(), name);
        assert_eq!(message.tag().to_le_bytes(), bytes[..2], "{name}");
    }
}

#[test]
fn every_kind_needs_all_its_bytes_and_no_more() {
    for (message, name, bytes) in KINDS {
        for cut in 0..bytes.len() {
            assert!(Message::read(&bytes[..cut]).is_err(), "{name} cut to {cut}");
        }
        let left_over = [bytes, &[0]].concat();
        let at_end = Refusal { kind: Kind::Shape, place: bytes.len() as u64 };
        assert_eq!(Message::read(&left_over), Err(at_end), "{name}");

        let mut short = vec![0xEE; bytes.len() - 1];
        let needed = Refusal { kind: Kind::Room, place: bytes.len() as u64 };
        assert_eq!(message.write_to(&mut short), Err(needed), "{name}");
        assert!(short.iter().all(|byte| *byte == 0xEE), "{name}");
    }
}

#[test]
fn every_log_level_is_taken_and_no_other() {
    for number in 0..=255u8 {
        let read = Message::read(&[0x00, 0x14, number, 0, 0, 0, 0]).map(|message| message.tag());
        match Level::of(number.into()) {
            Some(_) => assert_eq!(read, Ok(0x1400)),
            None => assert_eq!(read, Err(Refusal { kind: Kind::Value, place: 2 })),
        }
    }
}
