//! Runs with an idle call (request 2).
use super::*;

/// The book of `calls` calls with one lot of `has` units that is eligible for none, its calls wanting `wants` in all.
fn bare(calls: u8, has: u8, wants: u8) -> ([u8; 11], [u8; AMOUNTS_MAX], usize) {
    let mut book = *b"CLB\x01\0\x01\0\0\0\0\0";
    let mut amounts = [0; AMOUNTS_MAX];
    book[6] = calls;
    amounts[..8].copy_from_slice(&[b'C', b'L', b'A', 1, 0, 1, calls, has]);
    amounts[11] = wants;
    (book, amounts, 7 + 4 * (1 + calls as usize))
}

#[test]
fn idle_refused_in_turn() {
    let idle = |(book, amounts, len): ([u8; 11], [u8; AMOUNTS_MAX], usize), entries| {
        let mut flow = [8; 32];
        let told = find_and_run_idle(&book, &amounts[..len], &mut flow[..entries]);
        assert!(told.is_ok() || flow == [8; 32]);
        told.map(|placed| (placed.verdict, placed.units, placed.cost))
    };
    // 18 before 19, 19 before 17, 17 by the book's own calls
    assert_eq!(idle(bare(32, 0, 1), 0), Err(Refusal::CallsExceedLots));
    assert_eq!(idle(bare(32, 1, 1), 0), Err(Refusal::NoIdleCall));
    assert_eq!(idle(bare(31, 1, 0), 30), Err(Refusal::BufferTooShort));
    assert_eq!(idle(bare(31, 1, 0), 31), Ok((Verdict::Covered, 0, 0)));
    assert_eq!(idle(bare(31, 1, 1), 31), Ok((Verdict::Short, 0, 0)));
}

#[test]
fn idle_has_no_order() {
    // rows - 1 / 0 0 / 1 -: the book has an order, the enlarged book has none
    let book = b"CLB\x01\0\x03\x02\x02\0\0\0\x01\0\0\0\x03\0\0\0\0\0\0\0\0\0\0\0\x01\0\0\0\x01\0\0\0";
    let mut amounts = [0; 27];
    amounts[..7].copy_from_slice(b"CLA\x01\0\x03\x02");
    assert_eq!(find_and_run(book, &amounts, &mut [8; 6]).unwrap().verdict, Verdict::Full);
    let mut flow = [8; 6];
    assert_eq!(find_and_run_idle(book, &amounts, &mut flow), Err(Refusal::NoOrder));
    assert_eq!(flow, [8; 6]);
}
