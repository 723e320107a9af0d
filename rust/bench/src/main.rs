//! Measures the proved library beside the reference, `memcpy`, `from_utf8` and a bare loop, and prints a table of ratios.
//!
//! It fails if the library's copy is no longer a `memmove`, or if the library and the reference or the loop answer differently.
//! A ratio over its target is told, and is no failure: times depend on the machine. A word as argument measures only the
//! rows of that name: `sizes`, `counts`, `mixed`, `texts`, `messages`, `rings`, `ready`, `states`, `salvage` or `many`. The word `wasm` measures the library in WebAssembly
//! beside the native one, which nothing else does.

mod contest;
mod disassembly;
mod floor;
mod inputs;
mod rows;
mod wasm;

use rows::Row;
use std::process::ExitCode;

fn main() -> ExitCode {
    let wanted = std::env::args().nth(1);
    if wanted.as_deref() == Some("wasm") {
        println!("{}\n", machine());
        return match wasm::measure() {
            Ok(()) => ExitCode::SUCCESS,
            Err(fault) => {
                eprintln!("{fault}");
                ExitCode::FAILURE
            }
        };
    }
    let chosen = |name: &str| wanted.as_ref().is_none_or(|word| word == name);
    if !rows::GROUPS.iter().any(|(name, _)| chosen(name)) {
        eprintln!("there are no such rows; see the first lines of rust/bench/src/main.rs");
        return ExitCode::FAILURE;
    }
    match disassembly::look() {
        Ok(found) => {
            println!("The library's copy is a `memmove`: {}.\n", found.copies);
            println!("A call takes at most {} bytes of stack.\n", found.stack);
        }
        Err(fault) => {
            eprintln!("{fault}");
            return ExitCode::FAILURE;
        }
    }
    println!("{}\n", machine());
    let (check, canonical) = rows::controls();
    println!("Control, the reference beside itself: check {check:.2}, canonical {canonical:.2}\n");
    println!("| call | input | library | peer | ratio | target | | of memcpy | of floor | |");
    println!("|---|---|---:|---:|---:|---:|---|---:|---:|---|");
    let (mut met, mut missed) = (0, Vec::new());
    let mut tell = |row: Row| {
        println!("{}", line(&row));
        for (held, said) in verdicts(&row) {
            if held {
                met += 1;
            } else {
                missed.push(said);
            }
        }
    };
    for (name, measure) in rows::GROUPS {
        if chosen(name) {
            measure(&mut tell);
        }
    }
    println!("\n{met} targets met, {} not met; load {} at the end", missed.len(), load());
    missed.iter().for_each(|row| println!("{row}"));
    ExitCode::SUCCESS
}

/// Whether a row meets each of its targets, and what is said of it where it does not.
fn verdicts(row: &Row) -> Vec<(bool, String)> {
    let Row { call, input, ratio, floor_target, .. } = row;
    let missed = format!("- {call}, {input}: {ratio:.2}, target {}", target(row));
    let mut verdicts = vec![(row.met(), missed)];
    if let (Some(near), Some(floor)) = (row.near(), row.floor) {
        let missed = format!("- {call}, {input}: {floor:.2} of the floor, target {floor_target}");
        verdicts.push((near, missed));
    }
    verdicts
}

fn line(row: &Row) -> String {
    let Row { call, input, peer, ratio, .. } = row;
    let target = target(row);
    let (library, other) = (time(row.library), time(row.other));
    let verdict = verdict(row.met());
    let shown = |ratio: Option<f64>| ratio.map_or(String::new(), |ratio| format!("{ratio:.2}"));
    let (of_memcpy, of_floor) = (shown(row.of_memcpy), shown(row.floor));
    let near = row.near().map_or("", self::verdict);
    format!("| {call} | {input} | {library} | {other} ({peer}) | {ratio:.2} | {target} | {verdict} | {of_memcpy} | {of_floor} | {near} |")
}

/// What the table says of a target.
fn verdict(met: bool) -> &'static str {
    if met {
        "met"
    } else {
        "not met"
    }
}

/// The ratio that a row may have, and the time where that has a bound of its own.
fn target(row: &Row) -> String {
    match row.most {
        Some(most) => format!("{}, {}", row.target, time(most)),
        None => row.target.to_string(),
    }
}

/// A time in a unit that suits it.
fn time(nanoseconds: f64) -> String {
    match nanoseconds {
        n if n < 1e3 => format!("{n:.1} ns"),
        n if n < 1e6 => format!("{:.1} µs", n / 1e3),
        n => format!("{:.1} ms", n / 1e6),
    }
}

/// The processor, its cores, and how busy they are.
fn machine() -> String {
    let cores = std::thread::available_parallelism().map_or(1, |n| n.get());
    let model = model().unwrap_or_else(|| std::env::consts::ARCH.to_string());
    format!("{model}, {cores} cores, load {} at the start", load())
}

/// The processor's name, which `lscpu` knows on every kind of machine.
fn model() -> Option<String> {
    let output = std::process::Command::new("lscpu").output().ok()?;
    let about = String::from_utf8(output.stdout).ok()?;
    let name = about.lines().find_map(|line| line.strip_prefix("Model name:"))?;
    Some(name.trim().to_string())
}

/// The mean number of busy processes over the last minute.
fn load() -> String {
    let load = std::fs::read_to_string("/proc/loadavg").unwrap_or_default();
    load.split(' ').next().unwrap_or("unknown").to_string()
}
