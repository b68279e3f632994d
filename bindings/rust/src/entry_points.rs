//! The entry points of document 01 over the bytes of the files.
use crate::library::{self, accepted, placed, size};
use crate::version::library_fits;
use crate::{sys, Placed, Refusal, Size};

/// Reads a book: its counts.
///
/// # Errors
/// Refusals 1 to 8 of the book.
///
/// ```
/// use placer::{book_bytes, read_book, File, Refusal, Size};
///
/// let book = book_bytes(&[[1, 2], [3, 5], [4, 6]], 2)?;
/// assert_eq!(read_book(&book), Ok(Size { lots: 3, calls: 2 }));
/// assert_eq!(read_book(&book[..9]), Err(Refusal::EndsEarly(File::Book)));
///
/// // A desk with no lots yet: no rows.
/// assert_eq!(read_book(&book_bytes(&[[None; 2]; 0], 2)?), Ok(Size { lots: 0, calls: 2 }));
/// # Ok::<(), placer::Misfit>(())
/// ```
pub fn read_book(book: &[u8]) -> Result<Size, Refusal> {
    accepted(book, None, || library::read_book(book)).map(size)
}

/// The stretch of the book with a lot's costs, four bytes each, in the sequence of the lot's eligible calls; signed in a book of version 2
/// (its byte 3). It is empty if the book is refused, the lot is not in it, no call is eligible for the lot, or the library does not fit.
///
/// ```
/// use placer::{book_bytes, lot_costs};
///
/// let book = book_bytes(&[[Some(1), Some(2)], [None, Some(5)]], 2)?;
/// assert_eq!(lot_costs(&book, 0), b"\x01\0\0\0\x02\0\0\0");
/// assert_eq!(lot_costs(&book, 1), b"\x05\0\0\0");
/// assert!(lot_costs(&book, 2).is_empty());
/// # Ok::<(), placer::Misfit>(())
/// ```
pub fn lot_costs(book: &[u8], lot: usize) -> &[u8] {
    if library_fits().is_err() {
        return &[];
    }
    // SAFETY: here and below, each pointer is that of a slice and goes with its length; what is written is borrowed mutably.
    let stretch = unsafe { sys::placer_lot_costs(book.as_ptr(), book.len(), lot) };
    book.get(stretch.start..stretch.start + stretch.len).unwrap_or_default()
}

/// The cost of a pair, in hundredths of a cent per unit; `None` if the pair is not eligible, or its lot or call is not in the book.
///
/// # Errors
/// Refusals 1 to 8 of the book.
///
/// ```
/// use placer::{book_bytes, pair_cost};
///
/// // The second cost is below 0: a rebate.
/// let book = book_bytes(&[[Some(1), None], [Some(-3), Some(5)]], 2)?;
/// assert_eq!(pair_cost(&book, 0, 0)?, Some(1));
/// assert_eq!(pair_cost(&book, 1, 0)?, Some(-3));
/// assert_eq!(pair_cost(&book, 0, 1)?, None);
/// assert_eq!(pair_cost(&book, 2, 0)?, None);
/// # Ok::<(), Box<dyn std::error::Error>>(())
/// ```
pub fn pair_cost(book: &[u8], lot: usize, call: usize) -> Result<Option<i64>, Refusal> {
    let reply = accepted(book, None, || unsafe { sys::placer_pair_cost(book.as_ptr(), book.len(), lot, call) })?;
    Ok((reply.values[0] == 1).then_some(reply.values[1] as i64))
}

/// Reads amounts with their book: the counts.
///
/// # Errors
/// Refusals 1 to 8 of the book; 1, 2, 3, 15, 6, 8, 16, 21 of the amounts.
///
/// ```
/// use placer::{amounts_bytes, book_bytes, read_amounts, Refusal, Size};
///
/// // A lot that holds 5 units and no calls; its reserve is up to all of it.
/// let book = book_bytes(&[[None; 0]], 0)?;
/// let read = |reserves| amounts_bytes(&[5], &[], reserves).map(|amounts| read_amounts(&book, &amounts));
/// assert_eq!(read(None)?, Ok(Size { lots: 1, calls: 0 }));
/// assert_eq!(read(Some(&[5]))?, Ok(Size { lots: 1, calls: 0 }));
/// assert_eq!(read(Some(&[6]))?, Err(Refusal::ReserveExceedsLot));
/// # Ok::<(), placer::Misfit>(())
/// ```
pub fn read_amounts(book: &[u8], amounts: &[u8]) -> Result<Size, Refusal> {
    let (b, a) = (book.as_ptr(), amounts.as_ptr());
    accepted(book, None, || unsafe { sys::placer_read_amounts(b, book.len(), a, amounts.len()) }).map(size)
}

/// Checks an order against a book: its count of pairs. An order that passes is good for all amounts.
///
/// # Errors
/// Refusals 1 to 8 of the book; 1, 2, 3, 6, 8, 9, 10, 14, 11, 12 of the order.
///
/// ```
/// use placer::{book_bytes, check_order, order_bytes, Refusal};
///
/// let book = book_bytes(&[[1, 2], [3, 5]], 2)?;
/// assert_eq!(check_order(&book, &order_bytes(&[(0, 1), (0, 0), (1, 0), (1, 1)])?), Ok(4));
///
/// // Example F2: by this order the cheap pair (0, 0) comes first, and the rest can be dearer for it.
/// let order = order_bytes(&[(0, 0), (0, 1), (1, 0), (1, 1)])?;
/// assert_eq!(check_order(&book, &order), Err(Refusal::CrossSumTooHigh { i: 0, j: 0, k: 1, l: 1 }));
/// # Ok::<(), placer::Misfit>(())
/// ```
pub fn check_order(book: &[u8], order: &[u8]) -> Result<usize, Refusal> {
    accepted(book, Some(order), || library::check_order(book, order)).map(|reply| reply.values[0] as usize)
}

/// Finds an order and writes its file; the length of the file. Later bytes of the buffer are kept. [`ORDER_MAX`](crate::ORDER_MAX) bytes
/// are always enough.
///
/// # Errors
/// Refusals 1 to 8 of the book, then 17, then 13; the buffer is then unchanged.
///
/// ```
/// use placer::{book_bytes, find_order, order_pairs, Refusal, ORDER_MAX};
///
/// let book = book_bytes(&[[1, 2], [3, 5]], 2)?;
/// let mut order = [0; ORDER_MAX];
/// let length = find_order(&book, &mut order)?;
/// assert_eq!(order_pairs(&order[..length])?, [(0, 1), (0, 0), (1, 0), (1, 1)]);
/// assert_eq!(find_order(&book, &mut order[..length - 1]), Err(Refusal::BufferTooShort));
///
/// // Three lots and calls, each lot eligible for the calls of other numbers (example F9): no order is good for all amounts.
/// let book = book_bytes(&[[None, Some(0), Some(0)], [Some(0), None, Some(0)], [Some(0), Some(0), None]], 3)?;
/// assert_eq!(find_order(&book, &mut order), Err(Refusal::NoOrder));
/// # Ok::<(), Box<dyn std::error::Error>>(())
/// ```
pub fn find_order(book: &[u8], order: &mut [u8]) -> Result<usize, Refusal> {
    let b = book.as_ptr();
    let reply = accepted(book, None, || unsafe { sys::placer_find_order(b, book.len(), order.as_mut_ptr(), order.len()) })?;
    Ok(reply.values[0] as usize)
}

/// Checks an order and runs it. The units of lot `i` and call `j` go to `flow[i * calls + j]`, 0 where the pair is not eligible; entries
/// from `lots * calls` on are kept. [`FLOW_MAX`](crate::FLOW_MAX) entries are always enough.
///
/// # Errors
/// The refusals of [`check_order`], those of the amounts, then 17; the flow is then unchanged.
///
/// ```
/// use placer::{amounts_bytes, book_bytes, order_bytes, run_order, Verdict};
///
/// // Example F1: an order that was agreed on, run with the amounts of two days.
/// let book = book_bytes(&[[1, 2], [3, 5]], 2)?;
/// let order = order_bytes(&[(0, 1), (0, 0), (1, 0), (1, 1)])?;
/// let mut flow = [0; 4];
/// let placed = run_order(&book, &order, &amounts_bytes(&[5, 4], &[3, 6], None)?, &mut flow)?;
/// assert_eq!((placed.verdict, placed.units, placed.cost, flow), (Verdict::Full, 9, 24, [0, 5, 3, 1]));
/// let placed = run_order(&book, &order, &amounts_bytes(&[5, 4], &[2, 2], None)?, &mut flow)?;
/// assert_eq!((placed.verdict, placed.units, placed.cost, flow), (Verdict::Covered, 4, 6, [2, 2, 0, 0]));
/// # Ok::<(), Box<dyn std::error::Error>>(())
/// ```
pub fn run_order(book: &[u8], order: &[u8], amounts: &[u8], flow: &mut [u32]) -> Result<Placed, Refusal> {
    let (b, o, a, f) = (book.as_ptr(), order.as_ptr(), amounts.as_ptr(), flow.as_mut_ptr());
    let run = || unsafe { sys::placer_run_order(b, book.len(), o, order.len(), a, amounts.len(), f, flow.len()) };
    accepted(book, Some(order), run).map(placed)
}

/// Finds an order and runs it in one call; the flow is written as by [`run_order`].
///
/// # Errors
/// The refusals of [`read_amounts`], then 17, then 13; the flow is then unchanged.
///
/// ```
/// use placer::{amounts_bytes, book_bytes, find_and_run, Verdict};
///
/// // A desk with no calls yet, and a lot of 5 units: a flow of no entries is enough.
/// let placed = find_and_run(&book_bytes(&[[None; 0]], 0)?, &amounts_bytes(&[5], &[], None)?, &mut [])?;
/// assert_eq!((placed.verdict, placed.units, placed.cost), (Verdict::Covered, 0, 0));
///
/// // No lots yet, and a call for 5.
/// let placed = find_and_run(&book_bytes(&[[None]; 0], 1)?, &amounts_bytes(&[], &[5], None)?, &mut [])?;
/// assert_eq!((placed.verdict, placed.units, placed.cost), (Verdict::Short, 0, 0));
///
/// // Example F1 with a lot 0 of 7 units, 2 of them reserved by the desk: these are not placed, and nothing is left.
/// let book = book_bytes(&[[1, 2], [3, 5]], 2)?;
/// let amounts = amounts_bytes(&[7, 4], &[3, 6], Some(&[2, 0]))?;
/// let mut flow = [0; 4];
/// let placed = find_and_run(&book, &amounts, &mut flow)?;
/// assert_eq!((placed.verdict, placed.units, placed.cost, flow), (Verdict::Full, 9, 24, [0, 5, 3, 1]));
/// # Ok::<(), Box<dyn std::error::Error>>(())
/// ```
pub fn find_and_run(book: &[u8], amounts: &[u8], flow: &mut [u32]) -> Result<Placed, Refusal> {
    library::find_and_run(sys::placer_find_and_run, book, amounts, flow)
}

/// Finds an order and runs it with an idle call, which takes what stays in the box: with stock to spare, the cheapest choice of what to
/// leave. The idle call is the last of an enlarged book, every lot is eligible for it at cost 0, and its amount is the lots' total less the
/// calls'. Reply and flow are of the book's own calls, as by [`find_and_run`]: units in the idle call count as left.
///
/// The verdict is `Covered` or `Full` exactly when some allocation meets every call, and then none that does costs less: `Full` where the
/// totals are equal, `Covered` where they differ.
///
/// # Errors
/// The refusals of [`read_amounts`], then 18, 19, 17 and 13; the flow is then unchanged. 13 is about the enlarged book, which may have no
/// order where the book has one.
///
/// ```
/// use placer::{amounts_bytes, book_bytes, find_and_run, find_and_run_idle, Refusal, Verdict};
///
/// // Two lots of 3 and 4 units, two calls for 3 and 2, costs 3 5 / 1 2: lot 0 is the dear one.
/// let book = book_bytes(&[[3, 5], [1, 2]], 2)?;
/// let amounts = amounts_bytes(&[3, 4], &[3, 2], None)?;
/// let mut flow = [0; 4];
/// let placed = find_and_run_idle(&book, &amounts, &mut flow)?;
/// assert_eq!((placed.verdict, placed.units, placed.cost), (Verdict::Covered, 5, 9));
/// assert_eq!(flow, [1, 0, 2, 2]); // 2 units of lot 0 stay in the box
///
/// // The plain run places as many units, and leaves 2 of lot 1.
/// let placed = find_and_run(&book, &amounts, &mut flow)?;
/// assert_eq!((placed.verdict, placed.units, placed.cost), (Verdict::Covered, 5, 13));
/// assert_eq!(flow, [3, 0, 0, 2]);
///
/// // Where the calls want more than the lots have, nothing can stay idle.
/// let more = amounts_bytes(&[3, 1], &[3, 2], None)?;
/// assert_eq!(find_and_run_idle(&book, &more, &mut flow), Err(Refusal::CallsExceedLots));
/// # Ok::<(), Box<dyn std::error::Error>>(())
/// ```
pub fn find_and_run_idle(book: &[u8], amounts: &[u8], flow: &mut [u32]) -> Result<Placed, Refusal> {
    library::find_and_run(sys::placer_find_and_run_idle, book, amounts, flow)
}

/// Finds an order and runs it for a ticket panel, which shows at most 8 lots and 8 calls. Within eight by eight it replies and writes as
/// [`find_and_run`] does, on all inputs. Its work state is for 64 pairs instead of 1,024, so that it takes less stack.
/// [`PANEL_FLOW_MAX`](crate::PANEL_FLOW_MAX) entries are always enough.
///
/// # Errors
/// The refusals of [`find_and_run`], and 20 directly after 4; the flow is then unchanged.
///
/// ```
/// use placer::{amounts_bytes, book_bytes, find_and_run, find_and_run_panel, Refusal, PANEL_FLOW_MAX};
///
/// // Example F1.
/// let book = book_bytes(&[[1, 2], [3, 5]], 2)?;
/// let amounts = amounts_bytes(&[5, 4], &[3, 6], None)?;
/// let mut flow = [0; PANEL_FLOW_MAX];
/// assert_eq!(find_and_run_panel(&book, &amounts, &mut flow)?, find_and_run(&book, &amounts, &mut [0; 4])?);
/// assert_eq!(flow[..4], [0, 5, 3, 1]);
///
/// // Nine lots are too many, which is told before anything else of the book or the amounts is looked at.
/// let book = book_bytes(&[[1]; 9], 1)?;
/// assert_eq!(find_and_run_panel(&book, b"", &mut flow), Err(Refusal::AboveEight));
/// # Ok::<(), Box<dyn std::error::Error>>(())
/// ```
pub fn find_and_run_panel(book: &[u8], amounts: &[u8], flow: &mut [u32]) -> Result<Placed, Refusal> {
    library::find_and_run(sys::placer_find_and_run_panel, book, amounts, flow)
}
