//! How often each refusal was seen.

use crate::replay::Answer;

/// One more than the highest refusal number.
const NUMBERS: usize = 28;

/// Counts by refusal number; 0 counts what was accepted.
pub struct Tally {
    seen: [usize; NUMBERS],
}

impl Tally {
    pub fn new() -> Self {
        Tally { seen: [0; NUMBERS] }
    }

    pub fn note<T>(&mut self, answer: &Answer<T>) {
        let number = answer.as_ref().err().map_or(0, |&(number, _)| number);
        self.seen[number] += 1;
    }

    /// Prints the counts and asserts that these numbers were all seen.
    pub fn assert_seen(&self, name: &str, numbers: impl IntoIterator<Item = usize>) {
        println!(
            "{name}: answers by refusal, 0 for accepted: {:?}",
            self.seen
        );
        for number in numbers {
            assert_ne!(self.seen[number], 0, "{name}: {number} was not seen");
        }
    }
}
