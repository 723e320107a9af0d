//! Searches for so many seconds, 60 if none are named, from a number, 1 if none is named:
//!
//!     tools/fuzz [SECONDS] [NUMBER]
//!
//! A difference ends it with status 1, and the input is written to `fuzz-KIND.bin`. With `--save FOLDER` the inputs that were
//! answered in new ways are written there, the shortest of them first: seeds for the next search.

use std::fs;
use std::path::Path;
use std::process::ExitCode;
use std::time::{Duration, Instant};

use fuzz::hunt::{hunt, seeds, Hunt, Until};
use fuzz::subject::{
    files, library_cards, library_regions, library_states, library_tables, messages, wrappers,
};

fn main() -> ExitCode {
    let words: Vec<String> = std::env::args().skip(1).collect();
    let (words, save) = match words.iter().position(|word| word == "--save") {
        Some(at) => (words[..at].to_vec(), words.get(at + 1).cloned()),
        None => (words, None),
    };
    let number = |at: usize, other: u64| {
        words.get(at).map_or(other, |word| word.parse().expect("SECONDS and NUMBER are numbers"))
    };
    let (seconds, seed) = (number(0, 60), number(1, 1));
    let subjects = [
        files(),
        library_cards(),
        library_tables(),
        wrappers(),
        messages(),
        library_regions(),
        library_states(),
    ];
    let share = Duration::from_secs(seconds) / subjects.len() as u32;
    for subject in &subjects {
        let until = Until::Time(Instant::now() + share);
        let Hunt { inputs, kept, difference } = hunt(subject, &seeds(subject.name), seed, until);
        let name = subject.name;
        println!("{name}: {inputs} inputs, {} answered in ways of their own", kept.len());
        if let Some(folder) = &save {
            write_all(&Path::new(folder).join(name), kept);
        }
        if let Some((input, how)) = difference {
            let file = format!("fuzz-{name}.bin");
            fs::write(&file, input).expect("the input can be written");
            println!("{name}: they differ on {file}: {how}");
            return ExitCode::FAILURE;
        }
    }
    println!("no difference");
    ExitCode::SUCCESS
}

fn write_all(folder: &Path, mut inputs: Vec<Vec<u8>>) {
    fs::create_dir_all(folder).expect("the folder can be made");
    inputs.sort_by_key(Vec::len);
    for (number, input) in inputs.iter().enumerate() {
        fs::write(folder.join(format!("{number:05}")), input).expect("a seed can be written");
    }
}
