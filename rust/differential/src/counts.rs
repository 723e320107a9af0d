//! How often each number was answered.

use reference::answer::NUMBERS;
use std::fmt;

/// A count for each number that a call may answer; any other number ends the run.
#[derive(Clone, Default)]
pub struct Counts([u64; NUMBERS.len()]);

impl Counts {
    pub fn add(&mut self, number: u32) {
        match NUMBERS.iter().position(|known| *known == number) {
            Some(at) => self.0[at] += 1,
            None => panic!("{number} is the number of no answer"),
        }
    }

    pub fn add_all(&mut self, others: &Counts) {
        for (sum, count) in self.0.iter_mut().zip(others.0) {
            *sum += count;
        }
    }

    /// The numbers that were never answered.
    pub fn missing(&self) -> Vec<u32> {
        self.iter().filter(|(_, count)| *count == 0).map(|(number, _)| number).collect()
    }

    fn iter(&self) -> impl Iterator<Item = (u32, u64)> + '_ {
        NUMBERS.into_iter().zip(self.0)
    }
}

/// `0: 12, 1: 3` and so on.
impl fmt::Display for Counts {
    fn fmt(&self, f: &mut fmt::Formatter<'_>) -> fmt::Result {
        let shown: Vec<String> =
            self.iter().map(|(number, count)| format!("{number}: {count}")).collect();
        f.write_str(&shown.join(", "))
    }
}

#[cfg(test)]
mod tests {
    use super::*;

    #[test]
    fn numbers_are_counted_across_their_gaps() {
        let mut counts = Counts::default();
        counts.add(29);
        counts.add(29);
        counts.add(0);
        let mut sum = counts.clone();
        sum.add_all(&counts);
        assert!(sum.to_string().starts_with("0: 2, 1: 0,") && sum.to_string().ends_with("29: 4"));
        assert!(!sum.missing().contains(&29) && sum.missing().contains(&24));
    }

    #[test]
    #[should_panic(expected = "19 is the number of no answer")]
    fn a_number_in_a_gap_is_no_answer() {
        Counts::default().add(19);
    }
}
