//! The search: inputs that are answered in a new way are kept, and changed further.

use std::collections::HashSet;
use std::fs;
use std::path::{Path, PathBuf};
use std::time::Instant;

use differential::random::Random;

use crate::change::{changed, MOST};
use crate::guarded::Guarded;
use crate::subject::Subject;

/// When to stop.
pub enum Until {
    /// After so many inputs.
    Inputs(u64),
    Time(Instant),
}

impl Until {
    fn is_over(&self, inputs: u64) -> bool {
        match self {
            Until::Inputs(most) => inputs >= *most,
            // The clock is looked at now and then.
            Until::Time(end) => inputs.is_multiple_of(256) && Instant::now() >= *end,
        }
    }
}

/// What a search has come to.
pub struct Hunt {
    pub inputs: u64,
    /// The inputs that were answered in new ways, the seeds first.
    pub kept: Vec<Vec<u8>>,
    /// The first input on which the two sides differ, and how.
    pub difference: Option<(Vec<u8>, String)>,
}

/// Searches from the seeds; the same seeds and the same number give the same search.
pub fn hunt(subject: &Subject, seeds: &[Vec<u8>], number: u64, until: Until) -> Hunt {
    let mut random = Random::new(number);
    let mut guarded = Guarded::new(MOST);
    let mut seen = HashSet::new();
    let mut hunt = Hunt { inputs: 0, kept: Vec::new(), difference: None };
    let mut waiting: Vec<Vec<u8>> = seeds.iter().rev().cloned().collect();
    while !waiting.is_empty() || !until.is_over(hunt.inputs) {
        let input = waiting.pop().unwrap_or_else(|| {
            // A third of all inputs come of the seeds, which stand first.
            let some = if random.once_in(3) { seeds.len() } else { hunt.kept.len() };
            let input = &hunt.kept[random.below(some.clamp(1, hunt.kept.len()))];
            let other = &hunt.kept[random.below(hunt.kept.len())];
            changed(&mut random, input, other)
        });
        hunt.inputs += 1;
        match subject.compare(&mut random, guarded.hold(&input)) {
            Err(difference) => {
                hunt.difference = Some((input, difference));
                break;
            }
            Ok(trace) => {
                // A seed is kept, whatever it is answered.
                if seen.insert(trace) || hunt.inputs <= seeds.len() as u64 {
                    hunt.kept.push(input);
                }
            }
        }
    }
    hunt
}

/// The seeds of a subject: files of a folder, in the order of their names. Cards are of files.
pub fn seeds(subject: &str) -> Vec<Vec<u8>> {
    let subject = if subject == "cards" { "files" } else { subject };
    let folder = Path::new(env!("CARGO_MANIFEST_DIR")).join("seeds").join(subject);
    let entries = fs::read_dir(&folder).expect("the seeds are there");
    let mut paths: Vec<PathBuf> = entries.flatten().map(|entry| entry.path()).collect();
    paths.sort();
    let seeds: Vec<Vec<u8>> =
        paths.iter().map(|path| fs::read(path).expect("a seed can be read")).collect();
    assert!(!seeds.is_empty(), "there are seeds in {}", folder.display());
    seeds
}
