//! Verdicts, refusals, the cases of the requests through every entry point, and the files made from lists and taken apart.
use crate::library::placed;
use crate::sys::Reply;
use crate::*;

#[cfg(feature = "std")]
mod damaged;
mod examples;
mod idle;
#[cfg(feature = "std")]
mod limits;
mod new_desks;
mod panel;
mod rebates;
mod refusals;
mod reserves;
#[cfg(feature = "std")]
mod round_trips;
#[cfg(feature = "std")]
mod told_files;

#[test]
fn verdicts_by_number() {
    let told = |verdict| placed(Reply { number: 0, verdict, values: [0; 4] }).verdict;
    assert_eq!([1, 2, 3].map(told), [Verdict::Full, Verdict::Short, Verdict::Covered]);
    // a number that this crate does not know is never told as every call met
    assert_eq!([0, 4, u32::MAX].map(told), [Verdict::Short; 3]);
}

/// A desk that has no lots or no calls: its book, every word 0, and its amounts.
struct Desk {
    book: [u8; 7 + 4 * SIDE_MAX],
    amounts: [u8; AMOUNTS_MAX],
    lots: usize,
    calls: usize,
}

impl Desk {
    /// A desk whose last amount is this, and the others 0.
    fn new(version: u8, lots: usize, calls: usize, last: u8) -> Desk {
        let mut desk = Desk { book: [0; 7 + 4 * SIDE_MAX], amounts: [0; AMOUNTS_MAX], lots, calls };
        desk.book[..7].copy_from_slice(&[b'C', b'L', b'B', version, 0, lots as u8, calls as u8]);
        desk.amounts[..7].copy_from_slice(&[b'C', b'L', b'A', 1, 0, lots as u8, calls as u8]);
        if lots + calls > 0 {
            desk.amounts[3 + 4 * (lots + calls)] = last;
        }
        desk
    }

    fn book(&self) -> &[u8] {
        &self.book[..7 + 4 * self.lots]
    }

    fn amounts(&self) -> &[u8] {
        &self.amounts[..7 + 4 * (self.lots + self.calls)]
    }
}
