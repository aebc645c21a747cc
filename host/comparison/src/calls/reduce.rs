//! Leaves out the steps of a sequence that its difference does not need.

use crate::calls::book::Book;
use crate::calls::run::{run, Stop};
use crate::calls::step::Step;

/// Where the sequence differs, or none.
pub fn difference<L: Book>(steps: &[Step]) -> Option<Stop> {
    run::<L>(steps, |_, _| ()).err()
}

/// A sequence that still differs, and none of whose steps can be left out.
pub fn reduced<L: Book>(steps: &[Step]) -> Vec<Step> {
    let mut steps = steps.to_vec();
    loop {
        let before = steps.len();
        // The steps after the difference were never taken.
        if let Some(stop) = difference::<L>(&steps) {
            steps.truncate(stop.index + 1);
        }
        steps = without_parts::<L>(steps);
        if steps.len() == before {
            return steps;
        }
    }
}

/// Leaves out parts of half of the steps, then of a quarter, and at last single steps.
fn without_parts<L: Book>(mut steps: Vec<Step>) -> Vec<Step> {
    let mut size = steps.len().div_ceil(2);
    while size > 0 {
        let mut start = 0;
        while start < steps.len() {
            let end = (start + size).min(steps.len());
            let fewer = [&steps[..start], &steps[end..]].concat();
            if difference::<L>(&fewer).is_some() {
                steps = fewer;
            } else {
                start = end;
            }
        }
        size /= 2;
    }
    steps
}
