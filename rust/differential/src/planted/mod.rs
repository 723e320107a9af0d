//! Errors planted in the reference, to stand in the library's place: what looks for differences has to find each.

pub mod cards;
pub mod many;
pub mod rings;
pub mod salvage;
pub mod sheets;

use std::panic::{catch_unwind, AssertUnwindSafe};

use crate::compare::Comparison;
use crate::edits::EditCalls;
use crate::rings::RingCalls;
use crate::salvage::Salvage;
use crate::sheets::SheetCalls;

/// Some inputs, each asked of both sides.
pub type Group = fn(&mut Comparison);

/// What stands in the library's place.
pub trait Planted: Copy {
    fn put(self, run: &mut Comparison);
}

impl Planted for RingCalls {
    fn put(self, run: &mut Comparison) {
        run.rings = self;
    }
}

impl Planted for SheetCalls {
    fn put(self, run: &mut Comparison) {
        run.sheets = self;
    }
}

impl Planted for EditCalls {
    fn put(self, run: &mut Comparison) {
        run.edits = self;
    }
}

impl Planted for Salvage {
    fn put(self, run: &mut Comparison) {
        run.salvage = self;
    }
}

/// Each group finds the error.
pub fn found_by(groups: &[Group], planted: impl Planted) {
    for (at, group) in groups.iter().enumerate() {
        let mut run = Comparison::new("planted", 7);
        planted.put(&mut run);
        let ended = catch_unwind(AssertUnwindSafe(|| group(&mut run)));
        let told = ended.err().and_then(|why| why.downcast::<String>().ok());
        let told = told.unwrap_or_else(|| panic!("group {at} does not find the error"));
        assert!(told.starts_with("planted (seed 0x7)"), "group {at}: {told}");
    }
}
