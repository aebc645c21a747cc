//! The seed and the count that a comparison is asked for.

/// The first seed and how many cases follow it, or none where the words are not two such numbers.
pub fn seed_and_count(
    mut words: impl Iterator<Item = String>,
    default_seed: u64,
    default_count: u64,
) -> Option<(u64, u64)> {
    let seed = words.next().map_or(Some(default_seed), |text| text.parse().ok())?;
    let count = words.next().map_or(Some(default_count), |text| text.parse().ok())?;
    words.next().is_none().then_some((seed, count))
}
