//! Looks for inputs on which the proved library and the reference differ, by chance and memory.
//!
//! The differential tests make their inputs from the rules. Here an input is made by changing an earlier one, with no
//! knowledge of the format, and is kept to be changed further if it is answered in a way that was not seen before. Each is
//! given to both sides: answers and every byte of lent memory have to be the same. Inputs end where a page begins that
//! nobody may touch, so that a read past the end ends the run too.
//!
//! - [`guarded`]: memory before a page that nobody may touch;
//! - [`change`]: changes of an input;
//! - [`subject`]: what is compared, a subject for each kind of input;
//! - [`hunt`]: the search;
//! - [`planted`]: errors that the search has to find.

pub mod change;
pub mod guarded;
pub mod hunt;
pub mod planted;
pub mod subject;
