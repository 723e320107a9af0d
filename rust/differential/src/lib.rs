//! The proved library compared with the independent reference.
//!
//! What is proved of the library ends where its compiler and its C boundary begin. Here the compiled
//! calls are run beside a reader and writer that another hand wrote from the rules, on more than a
//! million inputs from a fixed seed: answers, readings, and every byte of lent memory have to be the same.
//!
//! - [`library`]: the calls of the library, in one place;
//! - [`random`]: the numbers that inputs are made of;
//! - [`make`]: valid files and wrappers, [`regions`]: valid regions, [`text`]: valid and broken UTF-8,
//!   [`damage`]: faults in them;
//! - [`compare`]: one input given to both, and what is compared; [`edits`]: the same for edits beside a card, [`rings`]: for
//!   calls that change a region in place, [`sheets`]: for fields of states; [`counts`]: how often each number was answered;
//! - [`model`]: a plain map that answers edits by looking up and counting;
//! - [`salvage`]: what is kept of damaged files and what is lost, and that the two together are the file;
//! - [`planted`]: errors that have to be found;
//! - [`record`]: calls and their answers written to a file, for the library in WebAssembly.
//!
//! The inputs themselves stand in `tests/differential`, a module for each format.

pub mod compare;
pub mod counts;
pub mod damage;
pub mod edits;
pub mod library;
pub mod make;
pub mod model;
pub mod planted;
pub mod random;
pub mod record;
pub mod regions;
pub mod rings;
pub mod salvage;
pub mod sheets;
pub mod text;
