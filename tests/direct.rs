//! The library's own answers, for the checks that compare them with something else than the reference.
use crate::sys::{
    placer_check_order, placer_find_order, placer_lot_costs, placer_pair_cost, placer_read_amounts, placer_read_book, placer_run_order,
    Reply,
};

/// The reply to a book, and to amounts with it.
pub fn read(book: &[u8], amounts: &[u8]) -> (Reply, Reply) {
    let (b, a) = (book.as_ptr(), amounts.as_ptr());
    unsafe { (placer_read_book(b, book.len()), placer_read_amounts(b, book.len(), a, amounts.len())) }
}

/// Start and length of the stretch with a lot's costs.
pub fn lot_costs(book: &[u8], lot: usize) -> (usize, usize) {
    let stretch = unsafe { placer_lot_costs(book.as_ptr(), book.len(), lot) };
    (stretch.start, stretch.len)
}

pub fn pair_cost(book: &[u8], lot: usize, call: usize) -> Reply {
    unsafe { placer_pair_cost(book.as_ptr(), book.len(), lot, call) }
}

/// The file of the order found.
pub fn found(book: &[u8]) -> Option<Vec<u8>> {
    let mut order = vec![0; 2055];
    let got = unsafe { placer_find_order(book.as_ptr(), book.len(), order.as_mut_ptr(), order.len()) };
    order.truncate(got.values[0] as usize);
    (got.number == 0).then_some(order)
}

pub fn check(book: &[u8], order: &[u8]) -> Reply {
    unsafe { placer_check_order(book.as_ptr(), book.len(), order.as_ptr(), order.len()) }
}

pub fn run(book: &[u8], order: &[u8], amounts: &[u8], flow: &mut [u32]) -> Reply {
    let (b, o, a) = (book.as_ptr(), order.as_ptr(), amounts.as_ptr());
    unsafe { placer_run_order(b, book.len(), o, order.len(), a, amounts.len(), flow.as_mut_ptr(), flow.len()) }
}
