//! Place bond lots on margin calls by an order of the eligible pairs, at the least cost where everything can be met.
//!
//! A *book* says for each lot and call whether the pair is eligible and what a unit costs on it. An *order* lists the eligible pairs;
//! running it gives each pair in turn the smaller of what its lot has left and what its call still lacks. By an order that passes the check
//! a run meets every call whenever some allocation does; where some allocation meets everything, so does the run, and none that does costs
//! less. Both hold whatever the *amounts*. With stock to spare [`find_and_run_idle`] makes the cheapest choice of what stays in the box.
//!
//! ```
//! use placer::{amounts_bytes, book_bytes, find_and_run, find_order, order_pairs, run_order, Verdict};
//!
//! // Two lots of 5 and 4 units, two calls for 3 and 6, costs 1 2 / 3 5 (example F1).
//! let book = book_bytes(&[[1, 2], [3, 5]], 2)?;
//! let amounts = amounts_bytes(&[5, 4], &[3, 6], None)?;
//!
//! let mut flow = [0; placer::FLOW_MAX];
//! let placed = find_and_run(&book, &amounts, &mut flow)?;
//! assert_eq!((placed.verdict, placed.units, placed.cost), (Verdict::Full, 9, 24));
//! assert_eq!(flow[..4], [0, 5, 3, 1]);
//!
//! // The same in two steps: the order is found once and run each day.
//! let mut order = [0; placer::ORDER_MAX];
//! let length = find_order(&book, &mut order)?;
//! assert_eq!(order_pairs(&order[..length])?, [(0, 1), (0, 0), (1, 0), (1, 1)]);
//! assert_eq!(run_order(&book, &order[..length], &amounts, &mut flow)?, placed);
//! # Ok::<(), Box<dyn std::error::Error>>(())
//! ```
//!
//! The three files are byte slices, laid out as `include/placer.h` says; a book of version 2 may have costs below 0, which are rebates. A
//! desk may have no lots yet, or no calls: its book is read like any other, and its order has no pairs. Amounts of version 2 have reserves:
//! a lot's amount is then what it holds less its reserve, in every run and for idle stock too. [`book_bytes`], [`order_bytes`] and
//! [`amounts_bytes`] make the files from lists, [`book_costs`], [`order_pairs`] and [`amounts_lists`] take them apart. These six come with
//! the feature `std`, which is on by default; without it the crate is `no_std`.
//!
//! Every function that reads takes any bytes: it accepts, or refuses by the first [`Refusal`] in the published sequence, which also says
//! which [`File`] it is about. A buffer is written only where the call accepts. Nothing panics, and calls may run in any number of threads.
//! Nothing is kept, and nothing allocated but these lists and files. A call takes at most 24 KiB of stack,
//! [`find_and_run_panel`] at most 8 KiB. For x86-64 Linux.
//!
//! # Linking
//! The library is looked for in the folder that the environment variable `PLACER_LIB_DIR` names; where it names none, in the repository's
//! `build`, in the `lib` of the release that this crate stands in, and where pkg-config says. `libplacer.a` is linked. A folder that was
//! named, or told by pkg-config, may have `libplacer.so` alone, which then has to be found by the loader too. The library has to be of this
//! crate's major version and of no earlier minor one, see [`library_version`].
//!
//! # Proved and trusted
//! Proved: every reply and every buffer, for all inputs; that the order found is good, and that one is found whenever a good one exists.
//! Trusted: the Rattle checker and compiler, this crate, rustc and the linker.
#![cfg_attr(not(feature = "std"), no_std)]
#![cfg_attr(not(feature = "std"), allow(rustdoc::broken_intra_doc_links))] // to the functions that need it
#![deny(missing_docs)]

mod entry_points;
#[cfg(feature = "std")]
mod files;
mod library;
#[cfg(feature = "std")]
mod lists;
mod refusal;
mod sys;
#[cfg(test)]
mod tests;
mod verdict;
mod version;

pub use entry_points::{
    check_order, find_and_run, find_and_run_idle, find_and_run_panel, find_order, lot_costs, pair_cost, read_amounts, read_book, run_order,
};
#[cfg(feature = "std")]
pub use files::{amounts_bytes, book_bytes, order_bytes, Misfit};
#[cfg(feature = "std")]
pub use lists::{amounts_lists, book_costs, order_pairs, Amounts};
pub use refusal::{File, Refusal};
pub use verdict::{Placed, Verdict};
pub use version::{library_version, Version, VERSION};

/// The most lots, and the most calls, of a book.
pub const SIDE_MAX: usize = 32;
/// The highest cost, in hundredths of a cent per unit.
pub const COST_MAX: i32 = 1_000_000;
/// The lowest cost, in a book of version 2; in one of version 1 it is 0.
pub const COST_MIN: i32 = -1_000_000;
/// The highest amount of a lot or a call, in units.
pub const AMOUNT_MAX: u32 = 1_000_000_000;
/// The length of the largest book, in bytes.
pub const BOOK_MAX: usize = 4231;
/// The length of the longest order, in bytes: a buffer of this length is long enough for every order.
pub const ORDER_MAX: usize = 2055;
/// The length of the largest amounts file, in bytes: one of version 2.
pub const AMOUNTS_MAX: usize = 391;
/// The entries of the largest flow: a buffer of this many is long enough for every book.
pub const FLOW_MAX: usize = 1024;
/// The most lots, and the most calls, that [`find_and_run_panel`] takes.
pub const PANEL_SIDE_MAX: usize = 8;
/// The entries of its largest flow.
pub const PANEL_FLOW_MAX: usize = 64;

/// The counts of a book.
#[derive(Clone, Copy, Debug, PartialEq, Eq, Hash)]
pub struct Size {
    /// Lots, 0 to 32.
    pub lots: usize,
    /// Calls, 0 to 32.
    pub calls: usize,
}
