//! `cim set`: a snapshot with one field of a CPU or of its MMU exchanged.

use crate::command::{with, Command, JSON, KEEP};
use crate::failure::{of_input, of_part, of_snapshot, Failure};
use crate::files;
use crate::registers::{self, Field};
use crate::shown::name_of;
use crate::states::{self, State};
use crate::words::Words;
use cimbrolau::{sheet, snapshot};
use std::ffi::OsStr;

pub const COMMAND: Command = Command {
    name: "set",
    usage: &["FILE OUT [--cpu APIC] --field NAME=VALUE"],
    about: "write it with one register changed",
    help: "\
Writes the snapshot with one field of a CPU's state, or of its MMU's, exchanged to OUT, which may be FILE;
no other byte changes. NAME is as `cim sheet` shows it: rax to r15, rip, rflags, mode, halted, es.selector,
cs.base, ss.limit, ds.access, st0, xmm15, mxcsr, a20; of the MMU cr0, dr7, efer, gdtr_base, tr.base. VALUE
is decimal, or hexadecimal behind 0x. A value that the state would be refused for is refused, as VALUE.

  cim set night.aerosnap mended.aerosnap --cpu 0 --field rip=0xFFF0
",
    options: &[
        with("--cpu", "APIC", "the CPU with this APIC id"),
        with("--field", "NAME=VALUE", "the field, and what it is set to"),
        KEEP,
        JSON,
    ],
    run,
};

/// A number, decimal or hexadecimal behind 0x, with `_` between digits where one likes.
fn number(word: &str) -> Option<u128> {
    let word = word.replace('_', "");
    match word.strip_prefix("0x").or_else(|| word.strip_prefix("0X")) {
        Some(digits) => u128::from_str_radix(digits, 16).ok(),
        None => word.parse().ok(),
    }
}

/// What is wished by NAME=VALUE.
struct Wish {
    name: String,
    field: Field,
    value: u128,
}

impl Wish {
    /// Where the field stands, for a refusal, whose place counts from the state's start.
    fn place(&self, what: &str, state: &State) -> String {
        format!("{} of {}, whose state starts at {}", self.name, state.words(what), state.offset)
    }
}

fn wished(word: &OsStr) -> Result<Wish, Failure> {
    let text = word.to_str().unwrap_or("?");
    let (name, value) = text
        .split_once('=')
        .ok_or_else(|| Failure::Usage(format!("`--field {}` is no NAME=VALUE", name_of(word))))?;
    let field = registers::field(name).ok_or_else(|| {
        Failure::Usage(format!(
            "`{}` is no field; `cim sheet` shows them",
            name_of(OsStr::new(name))
        ))
    })?;
    let value = number(value).ok_or_else(|| {
        Failure::Usage(format!("`{}` is no number of up to 128 bits", name_of(OsStr::new(value))))
    })?;
    Ok(Wish { name: name.to_ascii_lowercase(), field, value })
}

/// The bytes of a number in a field of some bytes.
fn bytes(value: u128, width: usize) -> Result<Vec<u8>, Failure> {
    let all = value.to_le_bytes();
    if width > all.len() {
        return Err(Failure::Usage(format!("a field of {width} bytes is no number")));
    }
    if all[width..].iter().any(|byte| *byte != 0) {
        return Err(Failure::Usage(format!("{value} does not fit the field's {width} bytes")));
    }
    Ok(all[..width].to_vec())
}

fn run(words: &Words) -> Result<(), Failure> {
    let [name, out] = words.plain("FILE and OUT")?;
    let wish = wished(words.needed("--field")?)?;
    let target = files::claim(words, out)?;
    let mut file = files::read(name, snapshot::MOST_BYTES)?;
    snapshot::check(&file).map_err(of_snapshot(&file))?;
    let apic = words.option("--cpu");
    match wish.field {
        Field::Cpu(field, index) => {
            let stands = states::one(states::cpus(&file)?, "CPU", apic)?;
            let state = &mut file[stands.range()];
            let before = state.to_vec();
            let width = sheet::cpu_field(state, field, index).map_err(of_input(&before))?.len();
            let value = bytes(wish.value, width)?;
            let refused = of_part(&before, wish.place("CPU", &stands));
            sheet::set_cpu(state, field, index, &value).map_err(refused)?;
        }
        Field::Mmu(field, index) => {
            let stands = states::one(states::mmus(&file)?, "MMU", apic)?;
            let state = &mut file[stands.range()];
            let before = state.to_vec();
            let width = sheet::mmu_field(state, field, index).map_err(of_input(&before))?.len();
            let value = bytes(wish.value, width)?;
            let refused = of_part(&before, wish.place("MMU", &stands));
            sheet::set_mmu(state, field, index, &value).map_err(refused)?;
        }
    }
    snapshot::check(&file).map_err(of_snapshot(&file))?;
    target.put(&file)
}
