//! The library against the reference on more than a million inputs.
//!
//! Runs each group of inputs from its own fixed seed and prints how many inputs it had. The first
//! difference ends the run with the input, the seed and both answers. A word as argument runs only the
//! groups whose name has it; `DIFFERENTIAL_SEED`, a number, tries other inputs; `DIFFERENTIAL_ANSWERS`, a file's name, writes
//! some of the inputs and what was answered to that file (`differential::record`).
//!
//! In the end it asks that there were a million inputs, and that every refusal came.

mod adds;
mod bounds;
mod breaks;
mod cards;
mod many;
mod messages;
mod orders;
mod ready;
mod removals;
mod rings;
mod salvage;
mod sheets;
mod shifts;
mod snapshots;
mod tails;
mod wrappers;

use std::time::Instant;

use differential::compare::Comparison;
use differential::counts::Counts;
use differential::record;

const SEED: u64 = 0x4149_5043_4145_524F;
const AT_LEAST: u64 = 1_000_000;

type Group = (&'static str, fn(&mut Comparison));

const GROUPS: &[Group] = &[
    ("snapshots: valid files", snapshots::valid),
    ("snapshots: every byte changed", snapshots::every_byte),
    ("snapshots: every length cut", snapshots::every_cut),
    ("snapshots: every number at its extremes", snapshots::extremes),
    ("snapshots: two faults at once", snapshots::pairs),
    ("snapshots: random damage", snapshots::damaged),
    ("snapshots: joined", snapshots::joined),
    ("snapshots: crowded", snapshots::crowded),
    ("snapshots: texts", snapshots::texts),
    ("lists: every order of a few", orders::few),
    ("lists: many in several orders", orders::many),
    ("lists: CPUs and MMUs in every version", orders::states),
    ("tails: behind lists", tails::behind_lists),
    ("tails: counts that are too low", tails::low_counts),
    ("tails: behind META, and where there are none", tails::behind_meta),
    ("tails: longer CPU states", tails::longer_states),
    ("wrappers: valid", wrappers::valid),
    ("wrappers: every address", wrappers::every_address),
    ("wrappers: every byte changed", wrappers::every_byte),
    ("wrappers: every length cut", wrappers::every_cut),
    ("wrappers: every number at its extremes", wrappers::extremes),
    ("wrappers: random damage", wrappers::damaged),
    ("messages: every tag", messages::every_tag),
    ("messages: every short length", messages::every_length),
    ("messages: texts", messages::texts),
    ("messages: long texts", messages::long_texts),
    ("messages: damaged", messages::damaged),
    ("messages: written at the edges", messages::written_edges),
    ("messages: written at random", messages::written),
    ("adds: chains in several orders", adds::chains),
    ("adds: to any file", adds::to_any_file),
    ("removals: on any file", removals::on_any_file),
    ("removals: every entry, to the last", removals::to_the_last),
    ("removals: what was just added", removals::undone),
    ("removals: payloads replaced twice", removals::replaced_twice),
    ("texts: every break", breaks::all),
    ("ready: all subsets of what is needed", ready::subsets),
    ("ready: two controllers, id 6 twice", ready::twice),
    ("ready: broken wrappers", ready::wrappers),
    ("ready: every room", ready::rooms),
    ("ready: damaged panels", ready::damaged),
    ("ready: any devices and disks", ready::any),
    ("salvage: valid files", salvage::valid),
    ("salvage: every length cut", salvage::every_cut),
    ("salvage: every byte changed", salvage::every_byte),
    ("salvage: every number at its extremes", salvage::every_extreme),
    ("salvage: two faults at once", salvage::two_faults),
    ("salvage: random damage", salvage::damaged),
    ("salvage: sections that come again", salvage::joined),
    ("salvage: 65 sections and more", salvage::crowded),
    ("salvage: thousands of broken sections", salvage::thousands),
    ("salvage: both rooms", salvage::rooms),
    ("salvage: long files", salvage::long),
    ("bounds: counts", bounds::counts::all),
    ("bounds: texts and messages", bounds::texts::all),
    ("bounds: payloads", bounds::payloads::all),
    ("bounds: the whole file", bounds::whole_file::all),
    ("rings: valid regions", rings::valid),
    ("rings: every byte changed", rings::every_byte),
    ("rings: every length cut", rings::every_cut),
    ("rings: every number at its extremes", rings::extremes),
    ("rings: two faults at once", rings::pairs),
    ("rings: random damage", rings::damaged),
    ("rings: numbers of queues", rings::counts),
    ("rings: rings that meet", rings::meetings),
    ("rings: cursors apart", rings::distances),
    ("rings: every reservation", rings::reservations),
    ("rings: every fill", rings::fills),
    ("rings: every commit", rings::commits),
    ("rings: every record taken", rings::takes),
    ("rings: lives beside a queue of messages", rings::lives),
    ("rings: lives without order", rings::wild_lives),
    ("sheets: every field and index", sheets::every_field),
    ("sheets: every listed byte at every value", sheets::every_value),
    ("sheets: every length", sheets::every_length),
    ("sheets: every width", sheets::every_width),
    ("sheets: at random", sheets::random),
    ("sheets: access words", sheets::access_words),
    ("cards: shifts", cards::shifts),
    ("cards: each number wrong alone", cards::one_number),
    ("cards: any numbers", cards::any),
    ("shifts: beside a plain map", shifts::beside_a_map),
    ("shifts: at the counts", shifts::at_the_counts),
    ("shifts: at the lengths", shifts::at_the_lengths),
    ("many: any tables and files", many::any),
    ("many: every order of a few", many::every_order),
    ("many: places and lengths at their edges", many::parts),
    ("many: keys that come again", many::again),
    ("many: part records", many::part_records),
    ("many: every room", many::rooms),
    ("many: two faults at once", many::two_faults),
    ("many: untrue cards", many::untrue_cards),
    ("many: hundreds of entries", many::hundreds),
    ("many: thousands of entries", many::thousands),
    ("many: the longest", many::longest),
];

fn main() {
    let wanted = std::env::args().skip(1).find(|argument| !argument.starts_with('-'));
    let seed = seed();
    let start = Instant::now();
    if let Some(path) = std::env::var_os("DIFFERENTIAL_ANSWERS") {
        record::start(path.as_ref());
    }
    let mut total = Total::default();
    for (at, (name, run)) in GROUPS.iter().enumerate() {
        if wanted.as_ref().is_none_or(|word| name.contains(word.as_str())) {
            let mut comparison = Comparison::new(name, seed.wrapping_add(at as u64));
            let begun = Instant::now();
            run(&mut comparison);
            total.add(&comparison, begun.elapsed().as_secs_f64());
        }
    }
    println!("answers by number: {}", total.answers);
    println!(
        "{} inputs, {} calls, no difference, {:.1} s",
        total.inputs,
        total.calls,
        start.elapsed().as_secs_f64()
    );
    if let Some((inputs, calls)) = record::finish() {
        println!("{inputs} inputs and {calls} calls recorded");
    }
    if wanted.is_none() {
        total.suffices();
    }
}

/// The seed of every run, unless the caller names another.
fn seed() -> u64 {
    match std::env::var("DIFFERENTIAL_SEED") {
        Ok(number) => number.parse().expect("DIFFERENTIAL_SEED is a number"),
        Err(_) => SEED,
    }
}

/// The counts of all groups.
#[derive(Default)]
struct Total {
    inputs: u64,
    calls: u64,
    answers: Counts,
}

impl Total {
    fn add(&mut self, group: &Comparison, seconds: f64) {
        println!("{}: {} inputs, {} calls, {seconds:.1} s", group.name, group.inputs, group.calls);
        self.inputs += group.inputs;
        self.calls += group.calls;
        self.answers.add_all(&group.answers);
    }

    fn suffices(&self) {
        assert!(self.inputs >= AT_LEAST, "fewer than {AT_LEAST} inputs");
        assert_eq!(self.answers.missing(), [], "the refusals that never came");
    }
}
