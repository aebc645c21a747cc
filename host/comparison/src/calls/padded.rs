//! A slice that is lent to a call, with elements on both sides of it that must stay.

/// How many elements on either side are watched.
pub const MARGIN: usize = 16;

/// The elements, with the margins.
#[derive(Clone, Debug, PartialEq, Eq)]
pub struct Padded<T>(Vec<T>);

impl<T: Copy + PartialEq> Padded<T> {
    /// So many elements, each another one than its neighbours, so that a moved one is seen.
    pub fn new(length: usize, element: impl Fn(usize) -> T) -> Padded<T> {
        Padded((0..length + 2 * MARGIN).map(element).collect())
    }

    /// The first so many elements, at most those of the second margin with them.
    pub fn first(&self, count: usize) -> &[T] {
        &self.0[MARGIN..MARGIN + count]
    }

    pub fn first_mut(&mut self, count: usize) -> &mut [T] {
        &mut self.0[MARGIN..MARGIN + count]
    }

    /// All elements between the margins.
    pub fn all(&self) -> &[T] {
        self.first(self.0.len() - 2 * MARGIN)
    }

    pub fn all_mut(&mut self) -> &mut [T] {
        self.first_mut(self.0.len() - 2 * MARGIN)
    }

    /// At most so many elements from this index on.
    pub fn from(&self, index: isize, count: usize) -> &[T] {
        let start = (index + MARGIN as isize) as usize;
        &self.0[start..self.0.len().min(start + count)]
    }

    /// The first element that is another one than in the other, with its index from the first
    /// element that is lent, and both values.
    pub fn differs(&self, other: &Padded<T>) -> Option<(isize, T, T)> {
        // Most are equal, which the slices as a whole tell faster than their elements one by one.
        if self == other {
            return None;
        }
        let mut pairs = self.0.iter().zip(&other.0);
        let index = pairs.position(|(own, others)| own != others)?;
        Some((index as isize - MARGIN as isize, self.0[index], other.0[index]))
    }
}

/// Bytes of a space before a call.
pub fn bytes(length: usize) -> Padded<u8> {
    Padded::new(length, |index| (index * 37 + 11) as u8)
}

/// Numbers of an array before a call, all larger than any that a call tells.
pub fn numbers(length: usize) -> Padded<u64> {
    Padded::new(length, |index| u64::MAX - 3 * index as u64)
}
