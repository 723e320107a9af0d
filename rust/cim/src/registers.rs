//! What engineers call the fields of CPU and MMU states.

use cimbrolau::sheet::{CpuField, MmuField};

pub const GENERAL: [&str; 16] = [
    "rax", "rcx", "rdx", "rbx", "rsp", "rbp", "rsi", "rdi", "r8", "r9", "r10", "r11", "r12", "r13",
    "r14", "r15",
];
pub const SEGMENTS: [&str; 6] = ["es", "cs", "ss", "ds", "fs", "gs"];
pub const CONTROL: [&str; 5] = ["cr0", "cr2", "cr3", "cr4", "cr8"];
pub const SYSTEM: [&str; 2] = ["ldtr", "tr"];
pub const MSRS: [&str; 13] = [
    "efer",
    "star",
    "lstar",
    "cstar",
    "sfmask",
    "sysenter_cs",
    "sysenter_eip",
    "sysenter_esp",
    "fs_base",
    "gs_base",
    "kernel_gs_base",
    "apic_base",
    "tsc",
];
pub const MODES: [&str; 4] = ["real", "protected", "long", "virtual 8086"];

/// The flags of RFLAGS that have letters, by their bits.
const FLAGS: [(u32, &str); 16] = [
    (0, "CF"),
    (2, "PF"),
    (4, "AF"),
    (6, "ZF"),
    (7, "SF"),
    (8, "TF"),
    (9, "IF"),
    (10, "DF"),
    (11, "OF"),
    (14, "NT"),
    (16, "RF"),
    (17, "VM"),
    (18, "AC"),
    (19, "VIF"),
    (20, "VIP"),
    (21, "ID"),
];

/// The flags that are set, by their letters, and the privilege level of input and output where it is not 0.
pub fn flags(rflags: u64) -> String {
    let mut set: Vec<String> = FLAGS
        .iter()
        .filter(|(bit, _)| rflags >> bit & 1 == 1)
        .map(|(_, letters)| letters.to_string())
        .collect();
    if rflags >> 12 & 3 != 0 {
        set.push(format!("IOPL={}", rflags >> 12 & 3));
    }
    if set.is_empty() {
        "none".into()
    } else {
        set.join(" ")
    }
}

/// A field of a CPU or of its MMU.
#[derive(Clone, Copy, Debug, PartialEq, Eq)]
pub enum Field {
    Cpu(CpuField, u32),
    Mmu(MmuField, u32),
}

/// Where a name stands in a list of names.
fn among(names: &[&str], name: &str) -> Option<u32> {
    names.iter().position(|known| *known == name).map(|at| at as u32)
}

/// The field of a name: `rax`, `cs.base`, `xmm3`, `st0`, `cr3`, `dr7`, `efer`, `tr.limit`, or a field that stands once.
pub fn field(name: &str) -> Option<Field> {
    use Field::{Cpu, Mmu};
    let name = &name.to_ascii_lowercase()[..];
    if let Some(index) = among(&GENERAL, name) {
        return Some(Cpu(CpuField::Gpr, index));
    }
    if let Some(index) = among(&CONTROL, name) {
        return Some(Mmu(MmuField::Cr, index));
    }
    if let Some(index) = among(&MSRS, name) {
        return Some(Mmu(MmuField::Msr, index));
    }
    if let Some((register, part)) = name.split_once('.') {
        let part_is = |word: &str| part == word;
        return match (among(&SEGMENTS, register), among(&SYSTEM, register)) {
            (Some(index), _) => {
                [CpuField::Selector, CpuField::Base, CpuField::Limit, CpuField::Access]
                    .into_iter()
                    .find(|field| part_is(field.name()))
                    .map(|field| Cpu(field, index))
            }
            (_, Some(index)) => {
                [MmuField::Selector, MmuField::Base, MmuField::Limit, MmuField::Access]
                    .into_iter()
                    .find(|field| part_is(field.name()))
                    .map(|field| Mmu(field, index))
            }
            _ => None,
        };
    }
    let numbered = |prefix: &str, count: u32| {
        let index: u32 = name.strip_prefix(prefix)?.parse().ok()?;
        (index < count && name == format!("{prefix}{index}")).then_some(index)
    };
    if let Some(index) = numbered("xmm", 16) {
        return Some(Cpu(CpuField::Xmm, index));
    }
    if let Some(index) = numbered("st", 8) {
        return Some(Cpu(CpuField::St, index));
    }
    if let Some(index) = numbered("dr", 8) {
        return Some(Mmu(MmuField::Dr, index));
    }
    let once = CpuField::ALL.iter().find(|field| field.count() == 1 && field.name() == name);
    let of_mmu = MmuField::ALL.iter().find(|field| field.count() == 1 && field.name() == name);
    once.map(|field| Cpu(*field, 0)).or_else(|| of_mmu.map(|field| Mmu(*field, 0)))
}

#[cfg(test)]
mod tests {
    use super::*;

    #[test]
    fn each_field_has_a_name() {
        for field in CpuField::ALL {
            for index in 0..field.count() {
                let name = match field {
                    CpuField::Gpr => GENERAL[index as usize].to_string(),
                    CpuField::Xmm | CpuField::St => format!("{}{index}", field.name()),
                    _ if field.count() == 6 => {
                        format!("{}.{}", SEGMENTS[index as usize], field.name())
                    }
                    _ => field.name().to_string(),
                };
                assert_eq!(super::field(&name), Some(Field::Cpu(*field, index)), "{name}");
            }
        }
        for field in MmuField::ALL {
            for index in 0..field.count() {
                let name = match field {
                    MmuField::Cr => CONTROL[index as usize].to_string(),
                    MmuField::Dr => format!("dr{index}"),
                    MmuField::Msr => MSRS[index as usize].to_string(),
                    _ if field.count() == 2 => {
                        format!("{}.{}", SYSTEM[index as usize], field.name())
                    }
                    _ => field.name().to_string(),
                };
                assert_eq!(super::field(&name), Some(Field::Mmu(*field, index)), "{name}");
            }
        }
        for name in ["", "xmm", "xmm16", "xmm01", "cr1", "cs", "cs.", "cs.top", "gpr", "dr8"] {
            assert_eq!(super::field(name), None, "{name}");
        }
    }

    #[test]
    fn flags_by_their_letters() {
        assert_eq!(flags(0x2), "none");
        assert_eq!(flags(0x246), "PF ZF IF");
        assert_eq!(flags(0x3000), "IOPL=3");
    }
}
