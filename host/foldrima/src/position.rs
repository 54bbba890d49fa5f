//! What stands at a place of an archive.

/// What a call answers of a record that it does not refuse: a value, or that the position
/// is withdrawn. A withdrawn position is a record of no bytes; it keeps its place, and has
/// no value. No output is written for it, whatever its length.
///
/// ```
/// use foldrima::{Position, Refusal};
///
/// # fn main() -> Result<(), Refusal> {
/// let mut radii = [9.0];
/// assert_eq!(foldrima::read_radii(&[], &mut radii)?, Position::Withdrawn);
/// assert_eq!(radii, [9.0]);
/// let record = [0, 2, 0, 0, 0, 1, 0, 0, 0x80, 0x3F, 1];
/// assert_eq!(foldrima::read_radii(&record, &mut radii)?, Position::Kept(()));
/// assert_eq!(radii, [1.0]);
/// # Ok(())
/// # }
/// ```
#[must_use = "the position may be withdrawn"]
#[derive(Debug, Clone, Copy, PartialEq, Eq, Hash)]
pub enum Position<T> {
    Kept(T),
    Withdrawn,
}

impl<T> Position<T> {
    /// The value, or none where the position is withdrawn.
    pub fn kept(self) -> Option<T> {
        match self {
            Self::Kept(value) => Some(value),
            Self::Withdrawn => None,
        }
    }

    /// The position with another value in the value's place.
    pub fn map<U>(self, change: impl FnOnce(T) -> U) -> Position<U> {
        match self {
            Self::Kept(value) => Position::Kept(change(value)),
            Self::Withdrawn => Position::Withdrawn,
        }
    }
}
