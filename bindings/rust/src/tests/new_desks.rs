//! Desks that have no lots or no calls (request 5).
use super::*;

/// The desks of either version with no lots or no calls, each with its last amount 0 and 1.
fn bare_desks() -> impl Iterator<Item = (Desk, u8)> {
    let sizes = (0..=SIDE_MAX).flat_map(|count| [(0, count), (count, 0)]);
    sizes.flat_map(|(lots, calls)| [(1, 0), (1, 1), (2, 0), (2, 1)].map(|(version, last)| (Desk::new(version, lots, calls, last), last)))
}

#[test]
fn zero_counts_are_read() {
    for (desk, _) in bare_desks() {
        let (book, size) = (desk.book(), Size { lots: desk.lots, calls: desk.calls });
        assert_eq!((read_book(book), read_amounts(book, desk.amounts())), (Ok(size), Ok(size)));
        for number in [0, 1, 31, 32, usize::MAX] {
            assert!(lot_costs(book, number).is_empty());
            assert_eq!([pair_cost(book, number, 0), pair_cost(book, 0, number)], [Ok(None); 2]);
        }
    }
}

#[test]
fn zero_counts_have_an_order_of_no_pairs() {
    for (desk, _) in bare_desks() {
        let mut order = [8; 9];
        assert_eq!(find_order(desk.book(), &mut order[..6]), Err(Refusal::BufferTooShort));
        assert_eq!(order, [8; 9]);
        assert_eq!((find_order(desk.book(), &mut order[..7]), &order), (Ok(7), b"CLO\x01\0\0\0\x08\x08"));
        assert_eq!(check_order(desk.book(), &order[..7]), Ok(0));
        assert_eq!(check_order(desk.book(), b"CLO\x01\0\x01\0\0\0"), Err(Refusal::PairNotEligible { place: 0 }));
    }
}

#[test]
fn zero_counts_run_without_a_flow() {
    for (desk, last) in bare_desks() {
        let (book, amounts, order, mut flow) = (desk.book(), desk.amounts(), b"CLO\x01\0\0\0", [8; 2]);
        let verdict = match (desk.lots, desk.calls, last) {
            (0, 0, _) | (_, _, 0) => Verdict::Full,
            (0, ..) => Verdict::Short,
            _ => Verdict::Covered,
        };
        let nothing = Placed { verdict, units: 0, cost: 0 };
        let idle = match (verdict, desk.calls) {
            (Verdict::Short, _) => Err(Refusal::CallsExceedLots),
            (_, SIDE_MAX) => Err(Refusal::NoIdleCall),
            _ => Ok(nothing),
        };
        let panel = if desk.lots.max(desk.calls) > PANEL_SIDE_MAX { Err(Refusal::AboveEight) } else { Ok(nothing) };
        for entries in [0, 2] {
            assert_eq!(run_order(book, order, amounts, &mut flow[..entries]), Ok(nothing));
            assert_eq!(find_and_run(book, amounts, &mut flow[..entries]), Ok(nothing));
            assert_eq!(find_and_run_idle(book, amounts, &mut flow[..entries]), idle);
            assert_eq!(find_and_run_panel(book, amounts, &mut flow[..entries]), panel);
        }
        assert_eq!(flow, [8; 2]);
    }
}

#[test]
fn zero_counts_refused() {
    // 4 before 6 and 8; without calls row by row 6 where the word is cut, 5 where it is not 0
    for (book, refusal) in [
        (&b"CLB\x01\0\0\x21"[..], Refusal::CountOutside),
        (b"CLB\x01\0\x21\0", Refusal::CountOutside),
        (b"CLB\x01\0\0\xff\0", Refusal::CountOutside),
        (b"CLB\x01\0\0\0\0", Refusal::BytesAfter(File::Book)),
        (b"CLB\x02\0\0\x02\0\0\0\0", Refusal::BytesAfter(File::Book)),
        (b"CLB\x01\0\x02\0\0\0\0\0\x01\0\0\0", Refusal::BitOutside { lot: 1 }),
        (b"CLB\x02\0\x02\0\0\0\0\x80\0\0\0", Refusal::BitOutside { lot: 0 }),
        (b"CLB\x01\0\x02\0\0\0\0\0\x01\0\0", Refusal::EndsEarly(File::Book)),
        (b"CLB\x01\0\x01\0", Refusal::EndsEarly(File::Book)),
        (b"CLB\x01\0\x01\0\0\0\0\0\0", Refusal::BytesAfter(File::Book)),
    ] {
        assert_eq!(read_book(book), Err(refusal));
        assert_eq!(find_and_run(book, b"", &mut []), Err(refusal));
    }

    // the counts have to be the book's, though the files are of one length
    let (lots, calls) = (Desk::new(1, 2, 0, 0), Desk::new(1, 0, 2, 0));
    assert_eq!(read_amounts(lots.book(), calls.amounts()), Err(Refusal::CountsDiffer));
    assert_eq!(find_and_run(calls.book(), lots.amounts(), &mut []), Err(Refusal::CountsDiffer));
    assert_eq!(read_amounts(lots.book(), &lots.amounts()[..14]), Err(Refusal::EndsEarly(File::Amounts)));
    assert_eq!(read_amounts(Desk::new(1, 0, 0, 0).book(), b"CLA\x01\0\0\0\0"), Err(Refusal::BytesAfter(File::Amounts)));
}
