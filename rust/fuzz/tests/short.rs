//! A short search from a fixed number, the same on every machine: it finds no difference in the library, and finds each
//! planted error.

use fuzz::hunt::{hunt, seeds, Until};
use fuzz::planted;
use fuzz::subject::{
    files, library_cards, library_regions, library_states, library_tables, messages, wrappers,
};

const NUMBER: u64 = 28;

/// How many inputs a search has.
const INPUTS: u64 = 200_000;

#[test]
fn the_library_and_the_reference_agree() {
    let subjects = [
        files(),
        library_cards(),
        library_tables(),
        wrappers(),
        messages(),
        library_regions(),
        library_states(),
    ];
    for subject in subjects {
        let found = hunt(&subject, &seeds(subject.name), NUMBER, Until::Inputs(INPUTS));
        let told = found.difference.map(|(input, how)| format!("{how}: {input:02X?}"));
        assert_eq!(told, None, "{}", subject.name);
        let seeds = seeds(subject.name).len();
        assert!(found.kept.len() > seeds, "{}: nothing new is found", subject.name);
    }
}

#[test]
fn every_planted_error_is_found() {
    let mut missed = Vec::new();
    for (name, subject) in planted::all() {
        let found = hunt(&subject, &seeds(subject.name), NUMBER, Until::Inputs(INPUTS));
        if found.difference.is_none() {
            missed.push(name);
        }
    }
    assert!(missed.is_empty(), "not found: {missed:?}");
}
