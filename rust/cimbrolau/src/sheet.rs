//! Register sheets: the fields of CPU and MMU states of version 2.
//!
//! A state is a part of a snapshot: the payload of a CPU or MMU section, or what stands in an entry of CPUS or MMUS.
//!
//! ```
//! use cimbrolau::sheet::{self, CpuField, CpuSheet};
//! use cimbrolau::{Kind, Refusal};
//!
//! let mut state = [0; 1183];
//! sheet::set_cpu(&mut state, CpuField::Rip, 0, &0xFFF0u64.to_le_bytes())?;
//! assert_eq!(CpuSheet::read(&state)?.rip, 0xFFF0);
//!
//! let refusal = sheet::set_cpu(&mut state, CpuField::Mode, 0, &[4]).unwrap_err();
//! assert_eq!(refusal, Refusal { kind: Kind::Value, place: 144 }); // and the state is as it was
//! # Ok::<(), Refusal>(())
//! ```

use crate::raw;
pub use crate::raw::{access, Access};
use crate::refusal::{filled, outcome, Result};

// The longest field, the FXSAVE image.
const FIELD_MOST: usize = 512;

macro_rules! fields {
    ($(#[$about:meta])* $name:ident: $($(#[$note:meta])* $field:ident = $number:literal $word:literal $count:literal,)*) => {
        $(#[$about])*
        #[derive(Clone, Copy, Debug, PartialEq, Eq, Hash)]
        #[repr(u32)]
        pub enum $name {
            $($(#[$note])* $field = $number,)*
        }

        impl $name {
            /// All fields, in the order of their numbers.
            pub const ALL: &'static [$name] = &[$($name::$field),*];

            /// The field's number.
            pub fn number(self) -> u32 {
                self as u32
            }

            /// The field's name, as engineers write it.
            pub fn name(self) -> &'static str {
                match self {
                    $($name::$field => $word,)*
                }
            }

            /// How many of them a state has; 1 for a field that stands once.
            pub fn count(self) -> u32 {
                match self {
                    $($name::$field => $count,)*
                }
            }
        }
    };
}

fields! {
    /// A field of a CPU state.
    CpuField:
    /// RAX, RCX, RDX, RBX, RSP, RBP, RSI, RDI, R8 to R15.
    Gpr = 0 "gpr" 16,
    /// The instruction pointer.
    Rip = 1 "rip" 1,
    /// The flags.
    Rflags = 2 "rflags" 1,
    /// 0 real, 1 protected, 2 long, 3 virtual 8086.
    Mode = 3 "mode" 1,
    /// 0 or 1.
    Halted = 4 "halted" 1,
    /// The selectors of ES, CS, SS, DS, FS, GS.
    Selector = 5 "selector" 6,
    /// Their bases.
    Base = 6 "base" 6,
    /// Their limits.
    Limit = 7 "limit" 6,
    /// Their access words.
    Access = 8 "access" 6,
    /// x87 control word.
    Fcw = 9 "fcw" 1,
    /// x87 status word.
    Fsw = 10 "fsw" 1,
    /// x87 tag word.
    Ftw = 11 "ftw" 1,
    /// x87 top of the stack, 0 to 7.
    Top = 12 "top" 1,
    /// x87 opcode.
    Fop = 13 "fop" 1,
    /// x87 instruction pointer.
    Fip = 14 "fip" 1,
    /// x87 data pointer.
    Fdp = 15 "fdp" 1,
    /// x87 code selector.
    Fcs = 16 "fcs" 1,
    /// x87 data selector.
    Fds = 17 "fds" 1,
    /// The x87 registers, 16 bytes each.
    St = 18 "st" 8,
    /// The control and status of vector arithmetic.
    Mxcsr = 19 "mxcsr" 1,
    /// The vector registers, 16 bytes each.
    Xmm = 20 "xmm" 16,
    /// The FXSAVE image, 512 bytes.
    Fxsave = 21 "fxsave" 1,
    /// The A20 gate, 0 or 1; this and the next three only with the extension.
    A20 = 22 "a20" 1,
    /// A pending IRQ 13, 0 or 1.
    Irq13 = 23 "irq13" 1,
    /// Whether a BIOS interrupt is pending, 0 or 1.
    BiosIntValid = 24 "bios_int_valid" 1,
    /// Which one.
    BiosInt = 25 "bios_int" 1,
}

fields! {
    /// A field of an MMU state.
    MmuField:
    /// CR0, CR2, CR3, CR4, CR8.
    Cr = 0 "cr" 5,
    /// DR0 to DR7.
    Dr = 1 "dr" 8,
    /// EFER, STAR, LSTAR, CSTAR, SFMASK, SYSENTER_CS, SYSENTER_EIP, SYSENTER_ESP, FS_BASE, GS_BASE, KERNEL_GS_BASE,
    /// APIC_BASE, TSC.
    Msr = 2 "msr" 13,
    /// The base of the GDT.
    GdtrBase = 3 "gdtr_base" 1,
    /// Its limit.
    GdtrLimit = 4 "gdtr_limit" 1,
    /// The base of the IDT.
    IdtrBase = 5 "idtr_base" 1,
    /// Its limit.
    IdtrLimit = 6 "idtr_limit" 1,
    /// The selectors of LDTR and TR.
    Selector = 7 "selector" 2,
    /// Their bases.
    Base = 8 "base" 2,
    /// Their limits.
    Limit = 9 "limit" 2,
    /// Their access words.
    Access = 10 "access" 2,
}

/// The bytes of a field of a CPU state.
///
/// ```
/// use cimbrolau::sheet::{cpu_field, CpuField};
/// use cimbrolau::Kind;
/// assert_eq!(cpu_field(&[0; 1183], CpuField::Xmm, 15)?, [0; 16]);
/// assert_eq!(cpu_field(&[0; 1183], CpuField::A20, 0).unwrap_err().kind, Kind::Shape); // no extension
/// # Ok::<(), cimbrolau::Refusal>(())
/// ```
pub fn cpu_field(state: &[u8], field: CpuField, index: u32) -> Result<Vec<u8>> {
    filled(FIELD_MOST, |out| raw::cpu_field(state, field.number(), index, out))
}

/// The bytes of a field of an MMU state.
///
/// ```
/// use cimbrolau::sheet::{mmu_field, MmuField};
/// assert_eq!(mmu_field(&[0; 264], MmuField::Cr, 0)?, [0; 8]);
/// # Ok::<(), cimbrolau::Refusal>(())
/// ```
pub fn mmu_field(state: &[u8], field: MmuField, index: u32) -> Result<Vec<u8>> {
    filled(FIELD_MOST, |out| raw::mmu_field(state, field.number(), index, out))
}

/// Sets a field of a CPU state; a refusal changes nothing. (See [the module][self] for an example.)
pub fn set_cpu(state: &mut [u8], field: CpuField, index: u32, value: &[u8]) -> Result<()> {
    let answer = raw::cpu_set(state, field.number(), index, value);
    outcome(answer.number, answer.place).map(|_| ())
}

/// Sets a field of an MMU state; a refusal changes nothing.
///
/// ```
/// use cimbrolau::sheet::{set_mmu, MmuField, MmuSheet};
/// let mut state = [0; 264];
/// set_mmu(&mut state, MmuField::Cr, 2, &0x1000u64.to_le_bytes())?; // CR3
/// assert_eq!(MmuSheet::read(&state)?.cr, [0, 0, 0x1000, 0, 0]);
/// # Ok::<(), cimbrolau::Refusal>(())
/// ```
pub fn set_mmu(state: &mut [u8], field: MmuField, index: u32, value: &[u8]) -> Result<()> {
    let answer = raw::mmu_set(state, field.number(), index, value);
    outcome(answer.number, answer.place).map(|_| ())
}

/// A segment register.
#[derive(Clone, Copy, Debug, PartialEq, Eq, Hash)]
pub struct Segment {
    /// The selector.
    pub selector: u16,
    /// The base.
    pub base: u64,
    /// The limit.
    pub limit: u32,
    /// The access word; [`access`] shows its parts.
    pub access: u32,
}

/// What the extension of a CPU state holds.
#[derive(Clone, Copy, Debug, PartialEq, Eq, Hash)]
pub struct Extension {
    /// Whether the A20 gate is open.
    pub a20: bool,
    /// Whether IRQ 13 is pending.
    pub irq13: bool,
    /// Whether a BIOS interrupt is pending.
    pub bios_int_valid: bool,
    /// Which one.
    pub bios_int: u8,
}

/// All fields of a CPU state of version 2.
#[derive(Clone, Debug, PartialEq, Eq)]
pub struct CpuSheet {
    /// RAX, RCX, RDX, RBX, RSP, RBP, RSI, RDI, R8 to R15.
    pub gpr: [u64; 16],
    /// The instruction pointer.
    pub rip: u64,
    /// The flags.
    pub rflags: u64,
    /// 0 real, 1 protected, 2 long, 3 virtual 8086.
    pub mode: u8,
    /// Whether it is halted.
    pub halted: bool,
    /// ES, CS, SS, DS, FS, GS.
    pub segments: [Segment; 6],
    /// x87 control word.
    pub fcw: u16,
    /// x87 status word.
    pub fsw: u16,
    /// x87 tag word.
    pub ftw: u16,
    /// x87 top of the stack.
    pub top: u8,
    /// x87 opcode.
    pub fop: u16,
    /// x87 instruction pointer.
    pub fip: u64,
    /// x87 data pointer.
    pub fdp: u64,
    /// x87 code selector.
    pub fcs: u16,
    /// x87 data selector.
    pub fds: u16,
    /// The x87 registers.
    pub st: [[u8; 16]; 8],
    /// The control and status of vector arithmetic.
    pub mxcsr: u32,
    /// The vector registers.
    pub xmm: [[u8; 16]; 16],
    /// The FXSAVE image.
    pub fxsave: [u8; 512],
    /// The extension, where the state has it.
    pub extension: Option<Extension>,
}

/// All fields of an MMU state of version 2.
#[derive(Clone, Debug, PartialEq, Eq)]
pub struct MmuSheet {
    /// CR0, CR2, CR3, CR4, CR8.
    pub cr: [u64; 5],
    /// DR0 to DR7.
    pub dr: [u64; 8],
    /// The MSRs, in the order of [`MmuField::Msr`].
    pub msr: [u64; 13],
    /// The base of the GDT.
    pub gdtr_base: u64,
    /// Its limit.
    pub gdtr_limit: u16,
    /// The base of the IDT.
    pub idtr_base: u64,
    /// Its limit.
    pub idtr_limit: u16,
    /// LDTR and TR.
    pub segments: [Segment; 2],
}

/// A state whose fields are read by their numbers.
struct Fields<'a> {
    state: &'a [u8],
    call: fn(&[u8], u32, u32, &mut [u8]) -> raw::Answer,
}

impl Fields<'_> {
    fn bytes<const N: usize>(&self, field: u32, index: usize) -> Result<[u8; N]> {
        let mut out = [0; N];
        let answer = (self.call)(self.state, field, index as u32, &mut out);
        outcome(answer.number, answer.place).map(|_| out)
    }

    fn u8(&self, field: u32) -> Result<u8> {
        self.bytes(field, 0).map(u8::from_le_bytes)
    }

    fn u16(&self, field: u32) -> Result<u16> {
        self.bytes(field, 0).map(u16::from_le_bytes)
    }

    fn u64(&self, field: u32) -> Result<u64> {
        self.bytes(field, 0).map(u64::from_le_bytes)
    }

    fn u64s<const N: usize>(&self, field: u32) -> Result<[u64; N]> {
        let mut all = [0; N];
        for (index, one) in all.iter_mut().enumerate() {
            *one = u64::from_le_bytes(self.bytes(field, index)?);
        }
        Ok(all)
    }

    fn registers<const N: usize>(&self, field: u32) -> Result<[[u8; 16]; N]> {
        let mut all = [[0; 16]; N];
        for (index, one) in all.iter_mut().enumerate() {
            *one = self.bytes(field, index)?;
        }
        Ok(all)
    }

    /// Selector, base, limit and access are four fields one behind the other.
    fn segments<const N: usize>(&self, selector: u32) -> Result<[Segment; N]> {
        let mut all = [Segment { selector: 0, base: 0, limit: 0, access: 0 }; N];
        for (index, one) in all.iter_mut().enumerate() {
            *one = Segment {
                selector: u16::from_le_bytes(self.bytes(selector, index)?),
                base: u64::from_le_bytes(self.bytes(selector + 1, index)?),
                limit: u32::from_le_bytes(self.bytes(selector + 2, index)?),
                access: u32::from_le_bytes(self.bytes(selector + 3, index)?),
            };
        }
        Ok(all)
    }
}

impl CpuSheet {
    /// The sheet of a state of 1183 bytes, or of 1191 and more with the extension.
    ///
    /// ```
    /// use cimbrolau::sheet::CpuSheet;
    /// use cimbrolau::Kind;
    /// assert_eq!(CpuSheet::read(&[0; 1183])?.extension, None);
    /// assert_eq!(CpuSheet::read(&[0; 1184]).unwrap_err().kind, Kind::Shape);
    /// # Ok::<(), cimbrolau::Refusal>(())
    /// ```
    pub fn read(state: &[u8]) -> Result<CpuSheet> {
        use CpuField::*;
        let fields = Fields { state, call: raw::cpu_field };
        let sheet = CpuSheet {
            gpr: fields.u64s(Gpr.number())?,
            rip: fields.u64(Rip.number())?,
            rflags: fields.u64(Rflags.number())?,
            mode: fields.u8(Mode.number())?,
            halted: fields.u8(Halted.number())? == 1,
            segments: fields.segments(Selector.number())?,
            fcw: fields.u16(Fcw.number())?,
            fsw: fields.u16(Fsw.number())?,
            ftw: fields.u16(Ftw.number())?,
            top: fields.u8(Top.number())?,
            fop: fields.u16(Fop.number())?,
            fip: fields.u64(Fip.number())?,
            fdp: fields.u64(Fdp.number())?,
            fcs: fields.u16(Fcs.number())?,
            fds: fields.u16(Fds.number())?,
            st: fields.registers(St.number())?,
            mxcsr: fields.bytes(Mxcsr.number(), 0).map(u32::from_le_bytes)?,
            xmm: fields.registers(Xmm.number())?,
            fxsave: fields.bytes(Fxsave.number(), 0)?,
            extension: None,
        };
        // The state is accepted, so that a field which it lacks is one of the extension.
        let Ok(a20) = fields.u8(A20.number()) else { return Ok(sheet) };
        let extension = Extension {
            a20: a20 == 1,
            irq13: fields.u8(Irq13.number())? == 1,
            bios_int_valid: fields.u8(BiosIntValid.number())? == 1,
            bios_int: fields.u8(BiosInt.number())?,
        };
        Ok(CpuSheet { extension: Some(extension), ..sheet })
    }
}

impl MmuSheet {
    /// The sheet of a state of 264 bytes. (See [`set_mmu`] for an example.)
    pub fn read(state: &[u8]) -> Result<MmuSheet> {
        use MmuField::*;
        let fields = Fields { state, call: raw::mmu_field };
        Ok(MmuSheet {
            cr: fields.u64s(Cr.number())?,
            dr: fields.u64s(Dr.number())?,
            msr: fields.u64s(Msr.number())?,
            gdtr_base: fields.u64(GdtrBase.number())?,
            gdtr_limit: fields.u16(GdtrLimit.number())?,
            idtr_base: fields.u64(IdtrBase.number())?,
            idtr_limit: fields.u16(IdtrLimit.number())?,
            segments: fields.segments(Selector.number())?,
        })
    }
}
