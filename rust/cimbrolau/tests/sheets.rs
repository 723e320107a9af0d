//! Sheets through the wrapper's types.

use cimbrolau::sheet::{self, CpuField, CpuSheet, Extension, MmuField, MmuSheet};
use cimbrolau::{Kind, Refusal};

/// A state in which every byte tells its place, but for those that are listed.
fn state(length: usize) -> Vec<u8> {
    let mut state: Vec<u8> = (0..length).map(|at| (at % 251) as u8).collect();
    for (place, value) in [(144, 2), (145, 1), (260, 7)] {
        state[place] = value;
    }
    if length == 1191 {
        state[1183..].copy_from_slice(&[4, 0, 0, 0, 1, 0, 1, 0x13]);
    }
    state
}

#[test]
fn a_sheet_has_every_field_of_its_state() {
    let bytes = state(1191);
    let sheet = CpuSheet::read(&bytes).unwrap();
    let u64_at = |at: usize| u64::from_le_bytes(bytes[at..at + 8].try_into().unwrap());
    assert_eq!((sheet.gpr[15], sheet.rip, sheet.rflags), (u64_at(120), u64_at(128), u64_at(136)));
    assert_eq!((sheet.mode, sheet.halted, sheet.top), (2, true, 7));
    assert_eq!(sheet.segments[5].base, u64_at(146 + 5 * 18 + 2));
    assert_eq!(sheet.st[7][..], bytes[395..411]);
    assert_eq!(sheet.xmm[15][..], bytes[655..671]);
    assert_eq!(sheet.fxsave[..], bytes[671..1183]);
    let extension = Extension { a20: true, irq13: false, bios_int_valid: true, bios_int: 0x13 };
    assert_eq!(sheet.extension, Some(extension));
    assert_eq!(CpuSheet::read(&state(1183)).unwrap().extension, None);

    let bytes: Vec<u8> = (0..264).map(|at| (at % 251) as u8).collect();
    let sheet = MmuSheet::read(&bytes).unwrap();
    assert_eq!(sheet.segments[1].access.to_le_bytes()[..], bytes[260..]);
}

/// Each field with each index, set to other bytes: these and no others change, and they are read back.
#[test]
fn a_set_changes_its_field_and_no_other_byte() {
    for length in [1183, 1191] {
        let before = state(length);
        for field in CpuField::ALL.iter().copied() {
            for index in 0..field.count() {
                let Ok(old) = sheet::cpu_field(&before, field, index) else {
                    assert!(length == 1183 && field.number() >= 22);
                    continue;
                };
                let value: Vec<u8> = old.iter().map(|byte| byte ^ 1).collect();
                let mut after = before.clone();
                sheet::set_cpu(&mut after, field, index, &value).unwrap();
                assert_eq!(sheet::cpu_field(&after, field, index).unwrap(), value);
                let changed = before.iter().zip(&after).filter(|(a, b)| a != b).count();
                assert_eq!(changed, value.len(), "{} {index}", field.name());
            }
        }
    }
    let before: Vec<u8> = (0..264).map(|at| (at % 251) as u8).collect();
    for field in MmuField::ALL.iter().copied() {
        for index in 0..field.count() {
            let old = sheet::mmu_field(&before, field, index).unwrap();
            let value: Vec<u8> = old.iter().map(|byte| byte ^ 1).collect();
            let mut after = before.clone();
            sheet::set_mmu(&mut after, field, index, &value).unwrap();
            let changed = before.iter().zip(&after).filter(|(a, b)| a != b).count();
            assert_eq!(changed, value.len(), "{} {index}", field.name());
        }
    }
}

#[test]
fn a_wrong_mode_can_be_corrected_and_two_wrong_values_cannot() {
    let mut bytes = state(1183);
    bytes[144] = 9;
    assert_eq!(CpuSheet::read(&bytes), Err(Refusal { kind: Kind::Value, place: 144 }));
    sheet::set_cpu(&mut bytes, CpuField::Mode, 0, &[1]).unwrap();
    assert!(CpuSheet::read(&bytes).is_ok());

    bytes[144] = 9;
    bytes[260] = 9;
    let refusal = sheet::set_cpu(&mut bytes, CpuField::Mode, 0, &[1]).unwrap_err();
    assert_eq!(refusal, Refusal { kind: Kind::Value, place: 260 });
    assert_eq!((bytes[144], bytes[260]), (9, 9));
}
