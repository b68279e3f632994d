//! What a run comes to.

/// Whether a run met everything, or every call. Reserved units never count as left. Whatever the verdict, no other allocation places more
/// units.
///
/// ```
/// use placer::{amounts_bytes, book_bytes, find_and_run, Verdict};
///
/// // Two lots and two calls, the last pair not eligible, costs 0; lots of 2 and 0 units, calls for 1 and 0 (example F8).
/// let book = book_bytes(&[[Some(0), Some(0)], [Some(0), None]], 2)?;
/// let placed = find_and_run(&book, &amounts_bytes(&[2, 0], &[1, 0], None)?, &mut [0; 4])?;
/// assert_eq!((placed.verdict, placed.units, placed.cost), (Verdict::Covered, 1, 0));
///
/// // Lots of 0 and 1 units, calls for 0 and 1: a call lacks a unit, and a lot that is not eligible for it has one left.
/// let placed = find_and_run(&book, &amounts_bytes(&[0, 1], &[0, 1], None)?, &mut [0; 4])?;
/// assert_eq!(placed.verdict, Verdict::Short);
/// # Ok::<(), Box<dyn std::error::Error>>(())
/// ```
#[derive(Clone, Copy, Debug, PartialEq, Eq, Hash)]
pub enum Verdict {
    /// Nothing is left in any lot or call. No other allocation that meets everything costs less.
    Full,
    /// Every call is met, and some lot has units left. Another allocation that meets every call may cost less, but not where
    /// [`find_and_run_idle`](crate::find_and_run_idle) says this.
    Covered,
    /// A call lacks units. No allocation meets every call; one that places as many units may cost less.
    Short,
}

/// What a run comes to: the sums over the flow written.
#[derive(Clone, Copy, Debug, PartialEq, Eq, Hash)]
#[must_use]
pub struct Placed {
    /// Whether everything, or every call, was met.
    pub verdict: Verdict,
    /// Units placed.
    pub units: u64,
    /// Their cost, in hundredths of a cent. It is below 0 only with a book of version 2.
    pub cost: i64,
}
