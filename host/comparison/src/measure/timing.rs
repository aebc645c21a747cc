//! The least time of several runs of two sides, one side after the other.

use std::time::{Duration, Instant};

/// The least times of the library and of the independent implementation.
#[derive(Clone, Copy)]
pub struct Least {
    pub library: Duration,
    pub independent: Duration,
}

/// Runs the two sides in turn, so that what slows the machine slows both, and keeps the least of so
/// many runs of each.
pub fn alternate<E>(
    runs: usize,
    mut library: impl FnMut() -> Result<(), E>,
    mut independent: impl FnMut() -> Result<(), E>,
) -> Result<Least, E> {
    let mut least = Least { library: Duration::MAX, independent: Duration::MAX };
    for _ in 0..runs {
        least.library = least.library.min(time(&mut library)?);
        least.independent = least.independent.min(time(&mut independent)?);
    }
    Ok(least)
}

fn time<E>(run: &mut impl FnMut() -> Result<(), E>) -> Result<Duration, E> {
    let start = Instant::now();
    run()?;
    Ok(start.elapsed())
}
