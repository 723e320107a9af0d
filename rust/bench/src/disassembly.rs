//! Whether the library's copy is still a `memmove`, and how much stack a call takes, found in its machine code.
//!
//! The library copies bytes by std's `copy_from_slice`, whose loop the compiler makes one `memmove` of. Were it not to, bytes
//! would be copied twice or one by one, and nothing but the time would tell. Both kinds of machine are read, x86-64 and Arm.

use std::collections::BTreeMap;
use std::process::Command;

/// The library that is linked.
const ARCHIVE: &str = concat!(env!("CARGO_MANIFEST_DIR"), "/../../target/staticlib/libcimbrolau.a");

/// The calls that copy bytes of any number.
const WRITERS: [&str; 11] = [
    "cimbrolau_canonical",
    "cimbrolau_add_device",
    "cimbrolau_add_devices",
    "cimbrolau_remove_device",
    "cimbrolau_remove_disk",
    "cimbrolau_replace_device",
    "cimbrolau_add_disk",
    "cimbrolau_salvage",
    "cimbrolau_wrapper_canonical",
    "cimbrolau_message_write",
    "cimbrolau_ring_fill",
];

/// Crates that move numbers of an index, and no bytes of a file: a `memmove` of theirs says nothing of the library's copy.
const INDEXERS: [&str; 4] = ["lists::", "sections::", "sorting::", "tables::"];

/// From so many bytes on, an array on the stack of a function that copies bytes is one that they go through.
const PART: u64 = 0x10000;

/// An instruction that sets how many bytes a `memmove` moves or a `memset` clears stands at most this many before its call.
const NEAR: usize = 8;

/// The bytes of a step, of which a large frame takes one after the other: a page, or what the kit has compilers take, which is less.
const STEPS: [u64; 2] = [0x1000, 0xc00];

/// The bytes of an address to return to, and of a register that is pushed. On Arm the caller's address is counted twice.
const RETURN: u64 = 8;

/// What is of interest in a function.
#[derive(Default)]
struct Function {
    calls: Vec<String>,
    /// Whether it moves bytes of any number at once: a `memmove` of so many as are known beforehand is no copy of a part.
    moves: bool,
    stack: u64,
    /// How many bytes it clears in arrays that are shorter than a part: others than one that bytes go through, which is never cleared where it is seen through.
    cleared: u64,
}

/// What was found in the machine code.
pub struct Found {
    /// Where the copies are.
    pub copies: String,
    /// The most bytes of stack that a call takes.
    pub stack: u64,
}

/// What the library's machine code shows, or what is wrong with it.
pub fn look() -> Result<Found, String> {
    let output = Command::new("objdump")
        .args(["-dr", "--no-show-raw-insn", ARCHIVE])
        .output()
        .map_err(|error| format!("objdump (of binutils) cannot be run: {error}"))?;
    if !output.status.success() {
        return Err(format!("objdump failed: {}", String::from_utf8_lossy(&output.stderr)));
    }
    judged(&String::from_utf8_lossy(&output.stdout))
}

/// Each writer reaches a function that moves bytes, and none of those has an array for them on its stack, beside what it clears.
fn judged(listing: &str) -> Result<Found, String> {
    let functions = functions(listing);
    for (name, function) in &functions {
        if function.moves && function.stack >= PART + function.cleared {
            return Err(format!(
                "{name} has {} bytes on its stack: its copy is not seen through",
                function.stack
            ));
        }
    }
    let mut found = Vec::new();
    for writer in WRITERS {
        match reached(writer, &functions, |function| function.moves) {
            Some(name) => found.push(format!("`{writer}` in `{name}`")),
            None => return Err(format!("the copy of {writer} is no longer a memmove")),
        }
    }
    let calls = functions.keys().filter(|name| name.starts_with("cimbrolau_"));
    let stack = calls.map(|call| depth(call, &functions)).max().unwrap_or(0);
    Ok(Found { copies: found.join(", "), stack })
}

/// The stack of a function and of those it calls, with the addresses that they return to. No function of the library calls itself.
fn depth(name: &str, functions: &BTreeMap<String, Function>) -> u64 {
    let Some(function) = functions.get(name) else { return 0 };
    let below = function.calls.iter().filter(|call| *call != name);
    RETURN + function.stack + below.map(|call| depth(call, functions)).max().unwrap_or(0)
}

/// The first function of which this holds, among a function and those it calls.
fn reached<'a>(
    start: &'a str,
    functions: &'a BTreeMap<String, Function>,
    holds: impl Fn(&Function) -> bool,
) -> Option<&'a str> {
    let mut reached = vec![start];
    let mut next = 0;
    while let Some(name) = reached.get(next).copied() {
        next += 1;
        let Some(function) = functions.get(name) else { continue };
        if holds(function) {
            return Some(name);
        }
        for call in &function.calls {
            if !reached.contains(&call.as_str()) {
                reached.push(call);
            }
        }
    }
    None
}

/// The functions of a listing of `objdump -dr`, by name.
fn functions(listing: &str) -> BTreeMap<String, Function> {
    let mut functions = BTreeMap::new();
    let mut current = String::new();
    let mut length = Length::default();
    let mut far = false;
    for line in listing.lines() {
        if let Some(name) = heading(line) {
            current = name.to_string();
            length = Length::default();
            continue;
        }
        let function: &mut Function = functions.entry(current.clone()).or_default();
        if let Some(target) = relocation(line) {
            match (target, length.near()) {
                ("memmove", None) => {
                    function.moves |=
                        !INDEXERS.iter().any(|crate_name| current.starts_with(crate_name))
                }
                ("memset", Some(bytes)) if bytes < PART => function.cleared += bytes,
                _ => {}
            }
            function.calls.push(target.to_string());
            continue;
        }
        length.pass(line);
        let taken = stack(line);
        // A step of a loop that takes steps up to an address below: the whole is counted where the address is made.
        let step = far && STEPS.contains(&taken);
        function.stack += if step { 0 } else { taken };
        far = (far || is_far(line)) && !step;
    }
    functions
}

/// The number that was last put where `memmove` and `memset` look for how many bytes they take, and how many instructions ago.
#[derive(Default)]
struct Length {
    bytes: Option<u64>,
    since: usize,
}

impl Length {
    fn pass(&mut self, line: &str) {
        match bytes_asked(line) {
            Some(bytes) => *self = Self { bytes, since: 0 },
            None => self.since += 1,
        }
    }

    fn near(&self) -> Option<u64> {
        self.bytes.filter(|_| self.since < NEAR)
    }
}

/// Whether an instruction sets how many bytes are asked, and the number if it is one: that in `mov $0x10000,%edx` or in
/// `mov w2, #0x10000`, and none in `mov %r9,%rdx` or `mov x2, x20`.
fn bytes_asked(line: &str) -> Option<Option<u64>> {
    let words = words(line);
    let (operands, register) = match words[..] {
        ["mov", operands] => operands.rsplit_once(',')?,
        ["mov", to, from, ..] => (from, to.trim_end_matches(',')),
        _ => return None,
    };
    if !["%edx", "%rdx", "w2", "x2"].contains(&register) {
        return None;
    }
    let digits = operands.trim_start_matches(['$', '#']).strip_prefix("0x");
    Some(digits.and_then(|digits| u64::from_str_radix(digits, 16).ok()))
}

/// The name in `0000000000000000 <writer::write>:`.
fn heading(line: &str) -> Option<&str> {
    line.strip_suffix(">:")?.split_once(" <").map(|(_, name)| name)
}

/// The name in `1b4: R_X86_64_PLT32 memmove-0x4`, in `.text.writer::write-0x4`, or in `1c0: R_AARCH64_CALL26 memmove`.
fn relocation(line: &str) -> Option<&str> {
    let (_, rest) = line.split_once(": R_X86_64_").or_else(|| line.split_once(": R_AARCH64_"))?;
    let target = rest.split_ascii_whitespace().nth(1)?;
    let name = target.strip_prefix(".text.").unwrap_or(target);
    Some(name.rsplit_once(['-', '+']).map_or(name, |(name, _)| name))
}

/// The words of the instruction in a line.
fn words(line: &str) -> Vec<&str> {
    let instruction = line.split_once(":\t").map_or("", |(_, instruction)| instruction);
    instruction.split_ascii_whitespace().collect()
}

/// Whether an instruction makes the address at which a loop over the steps of a large frame ends: `sub $0x11000,%r11`,
/// or `sub x9, sp, #0x11, lsl #12`.
fn is_far(line: &str) -> bool {
    let arm = matches!(words(line)[..], ["sub", to, "sp,", ..] if to != "sp,");
    stack(line) > 0 && (arm || line.ends_with(",%r11"))
}

/// The bytes that an instruction takes on the stack.
fn stack(line: &str) -> u64 {
    let words = words(line);
    stack_x86(&words).or_else(|| stack_arm(&words)).unwrap_or(0)
}

/// `push %rbx`, `sub $0x1000,%rsp`, or for all steps of a loop `lea -0x10000(%rsp),%r11` and `sub $0x11000,%r11`.
fn stack_x86(words: &[&str]) -> Option<u64> {
    let digits = match words {
        ["push", _] => return Some(RETURN),
        ["sub", operands] => {
            let bytes = operands.strip_prefix("$0x")?;
            bytes.strip_suffix(",%rsp").or(bytes.strip_suffix(",%r11"))?
        }
        ["lea", operands] => operands.strip_prefix("-0x")?.split_once("(%rsp)")?.0,
        _ => return None,
    };
    u64::from_str_radix(digits, 16).ok()
}

/// `stp x29, x30, [sp, #-96]!`, `sub sp, sp, #0x1, lsl #12`, or for all steps of a loop `sub x9, sp, #0x11, lsl #12`.
fn stack_arm(words: &[&str]) -> Option<u64> {
    match words {
        ["stp", _, _, "[sp,", bytes] | ["str", _, "[sp,", bytes] => {
            bytes.strip_prefix("#-")?.strip_suffix("]!")?.parse().ok()
        }
        ["sub", _, "sp,", bytes, shift @ ..] => {
            let digits = bytes.strip_prefix("#0x")?.trim_end_matches(',');
            let bytes = u64::from_str_radix(digits, 16).ok()?;
            Some(if matches!(shift, ["lsl", "#12", ..]) { bytes << 12 } else { bytes })
        }
        _ => None,
    }
}

#[cfg(test)]
mod tests {
    use super::*;

    const MOVES: &str = "
0000000000000000 <writer::write>:
   9:\tsub    $0x20,%rsp
 1ae:\tmov    %r9,%rdx
 1b3:\tcall   1b8 <writer::write+0x1b8>
\t\t\t1b4: R_X86_64_PLT32\tmemmove-0x4
";

    /// A listing in which each writer but the fill calls `writer::write`, with the body given, and the fill moves bytes itself.
    fn listing(body: &str) -> String {
        let call = "   0:\tcall   5\n\t\t\t1: R_X86_64_PLT32\t.text.writer::write-0x4";
        let heads = WRITERS.iter().filter(|writer| **writer != FILL);
        let writers: String =
            heads.map(|writer| format!("0000000000000000 <{writer}>:\n{call}\n")).collect();
        format!("{writers}{FILLS}{body}")
    }

    const FILL: &str = "cimbrolau_ring_fill";

    const FILLS: &str =
        "0000000000000000 <cimbrolau_ring_fill>:\n\t\t\t1: R_X86_64_PLT32\tmemmove-0x4\n";

    #[test]
    fn a_fill_that_moves_no_bytes_is_found() {
        let whole = listing(MOVES);
        assert!(judged(&whole).unwrap().copies.ends_with("`cimbrolau_ring_fill`"));
        let slow = whole.replace(FILLS, &FILLS.replace("memmove", "rings::store"));
        assert!(judged(&slow).is_err());
        assert!(judged(&whole.replace(FILLS, "")).is_err());
    }

    #[test]
    fn a_memmove_is_found_behind_calls() {
        assert!(judged(&listing(MOVES))
            .unwrap()
            .copies
            .contains("`cimbrolau_canonical` in `writer::write`"));
    }

    #[test]
    fn the_stack_of_a_call_is_that_of_all_below_it() {
        let pushed = MOVES.replace("   9:", "   8:\tpush   %rbx\n   9:");
        assert_eq!(judged(&listing(&pushed)).unwrap().stack, 8 + (8 + 8 + 0x20));
        let pages = "   a:\tmov    %rsp,%r11\n   d:\tsub    $0x8000,%r11\n  14:\tsub    $0x1000,%rsp\n   9:";
        let paged = judged(&listing(&MOVES.replace("   9:", pages))).unwrap();
        assert_eq!(paged.stack, 8 + (8 + 0x8000 + 0x20));
        let shorter = pages.replace("$0x1000", "$0xc00");
        let stepped = judged(&listing(&MOVES.replace("   9:", &shorter))).unwrap();
        assert_eq!(stepped.stack, paged.stack);
    }

    const MOVES_ARM: &str = "
0000000000000000 <writer::write>:
   0:\tstp\tx29, x30, [sp, #-96]!
   9:\tsub\tsp, sp, #0x20
 1b0:\tmov\tx2, x20
 1c0:\tbl\t0 <memmove>
\t\t\t1c0: R_AARCH64_CALL26\tmemmove
";

    #[test]
    fn arm_is_read_too() {
        let found = judged(&listing(MOVES_ARM)).unwrap();
        assert!(found.copies.contains("`cimbrolau_canonical` in `writer::write`"));
        assert_eq!(found.stack, 8 + (8 + 96 + 0x20));
        let pages = "   4:\tsub\tx9, sp, #0x8, lsl #12\n   8:\tsub\tsp, sp, #0x1, lsl #12\n   9:";
        let paged = judged(&listing(&MOVES_ARM.replace("   9:", pages))).unwrap();
        assert_eq!(paged.stack, 8 + (8 + 96 + 0x8000 + 0x20));
        let shorter = pages.replace("#0x1, lsl #12", "#0xc00");
        let stepped = judged(&listing(&MOVES_ARM.replace("   9:", &shorter))).unwrap();
        assert_eq!(stepped.stack, paged.stack);
        assert!(judged(&listing(&MOVES_ARM.replace("#0x20", "#0x10, lsl #12"))).is_err());
        assert!(judged(&listing(&MOVES_ARM.replace("memmove", "memset"))).is_err());
        assert!(judged(&listing(&MOVES_ARM.replace("x2, x20", "w2, #0x100"))).is_err());
    }

    #[test]
    fn another_call_is_no_memmove() {
        assert!(judged(&listing(&MOVES.replace("memmove", "memset"))).is_err());
        assert!(judged(&listing(&MOVES.replace("memmove", "memcpy"))).is_err());
        assert!(judged(&listing(&MOVES.replace("%r9,%rdx", "$0x100,%edx"))).is_err());
        assert!(judged(&listing(&MOVES.replace("R_X86", "no"))).is_err());
        assert!(judged("").is_err());
    }

    #[test]
    fn a_memmove_of_numbers_is_no_copy() {
        let elsewhere = |name: &str| {
            let bytewise = MOVES.replace("memmove", name);
            let moves = MOVES.replace("writer::write", name);
            judged(&listing(&format!("{bytewise}{moves}")))
        };
        assert!(elsewhere("canon::put_between").is_ok());
        assert!(elsewhere("tables::put_filed").is_err());
        assert!(elsewhere("sorting::insert_at").is_err());
    }

    #[test]
    fn other_arrays_that_are_cleared_are_not_the_copys() {
        let large = MOVES.replace("$0x20,%rsp", "$0x10020,%rsp");
        let clears = |bytes: &str| {
            let call = "  20:\tcall   25 <memset>\n\t\t\t21: R_X86_64_PLT32\tmemset-0x4\n 1ae:";
            large.replace(" 1ae:", &format!("  1b:\tmov    ${bytes},%edx\n{call}"))
        };
        assert!(judged(&listing(&clears("0x8000"))).is_ok());
        assert!(judged(&listing(&clears("0x10"))).is_err());
        assert!(judged(&listing(&clears("0x10000"))).is_err());
        let arm = MOVES_ARM.replace("#0x20", "#0x10, lsl #12");
        let cleared = "  20:\tmov\tw2, #0x4000\n  24:\tbl\t0 <memset>\n\t\t\t24: R_AARCH64_CALL26\tmemset\n 1b0:";
        assert!(judged(&listing(&arm.replace(" 1b0:", cleared))).is_ok());
    }

    #[test]
    fn an_array_on_the_stack_is_found() {
        assert!(judged(&listing(&MOVES.replace("$0x20,%rsp", "$0x10020,%rsp"))).is_err());
        let probed = MOVES.replace("sub    $0x20,%rsp", "lea    -0x10000(%rsp),%r11");
        assert!(judged(&listing(&probed)).is_err());
    }
}
