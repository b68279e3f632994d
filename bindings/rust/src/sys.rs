//! The declarations of `include/placer.h`.

#[repr(C)]
#[derive(Clone, Copy, Debug, PartialEq)]
pub struct Reply {
    pub number: u32,
    pub verdict: u32,
    pub values: [u64; 4],
}

#[repr(C)]
pub struct Stretch {
    pub start: usize,
    pub len: usize,
}

extern "C" {
    #[allow(dead_code)] // not called by the comparison in tests/, which includes this file
    pub fn placer_version() -> u32;
    pub fn placer_read_book(book: *const u8, book_len: usize) -> Reply;
    pub fn placer_lot_costs(book: *const u8, book_len: usize, lot: usize) -> Stretch;
    pub fn placer_pair_cost(book: *const u8, book_len: usize, lot: usize, call: usize) -> Reply;
    pub fn placer_read_amounts(book: *const u8, book_len: usize, amounts: *const u8, amounts_len: usize) -> Reply;
    pub fn placer_check_order(book: *const u8, book_len: usize, order: *const u8, order_len: usize) -> Reply;
    pub fn placer_run_order(
        book: *const u8,
        book_len: usize,
        order: *const u8,
        order_len: usize,
        amounts: *const u8,
        amounts_len: usize,
        flow: *mut u32,
        flow_len: usize,
    ) -> Reply;
    pub fn placer_find_order(book: *const u8, book_len: usize, order: *mut u8, order_len: usize) -> Reply;
    pub fn placer_find_and_run(
        book: *const u8,
        book_len: usize,
        amounts: *const u8,
        amounts_len: usize,
        flow: *mut u32,
        flow_len: usize,
    ) -> Reply;
    pub fn placer_find_and_run_idle(
        book: *const u8,
        book_len: usize,
        amounts: *const u8,
        amounts_len: usize,
        flow: *mut u32,
        flow_len: usize,
    ) -> Reply;
    pub fn placer_find_and_run_panel(
        book: *const u8,
        book_len: usize,
        amounts: *const u8,
        amounts_len: usize,
        flow: *mut u32,
        flow_len: usize,
    ) -> Reply;
}
