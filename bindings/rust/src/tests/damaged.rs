//! Damaged files taken apart: refused as the library refuses their opening and length, and else made again from their lists.
use super::*;

/// A file with each byte changed to each value, and of each length up to some bytes more.
fn damaged(file: &[u8]) -> impl Iterator<Item = Vec<u8>> + '_ {
    let changed = (0..file.len()).flat_map(|at| (0..=255).map(move |byte| (at, byte))).map(move |(at, byte)| {
        let mut changed = file.to_vec();
        changed[at] = byte;
        changed
    });
    let longer = [file, &[0; 9]].concat();
    changed.chain((0..=longer.len()).map(move |length| longer[..length].to_vec()))
}

/// The refusal of an opening or a length.
fn of_form(told: Option<Refusal>) -> Option<Refusal> {
    told.filter(|refusal| matches!(refusal.number(), Some(1 | 2 | 3 | 6 | 8)))
}

#[test]
fn books() {
    let mut taken = 0;
    for rows in [[[Some(1), Some(2)], [None, Some(5)]], [[Some(1), Some(-2)], [None, Some(5)]], [[None; 2]; 2]] {
        for book in damaged(&book_bytes(&rows, 2).unwrap()) {
            match book_costs(&book) {
                Err(refusal) => assert_eq!(read_book(&book), Err(refusal)),
                Ok(costs) => {
                    let rebate = costs.iter().flatten().flatten().any(|&cost| cost < 0);
                    let made = book_bytes(&costs, read_book(&book).unwrap().calls).unwrap();
                    assert!(made == book || (made[3] == 1 && book[3] == 2 && !rebate && made[4..] == book[4..]));
                    taken += 1;
                }
            }
        }
    }
    assert!(taken > 3_000);
}

#[test]
fn orders() {
    let book = book_bytes(&[[1, 2], [3, 5]], 2).unwrap();
    for pairs in [&[(0, 1), (0, 0), (1, 0), (1, 1)][..], &[(255, 0)], &[]] {
        for order in damaged(&order_bytes(pairs).unwrap()) {
            let pairs = order_pairs(&order);
            assert_eq!(pairs.as_ref().err().copied(), of_form(check_order(&book, &order).err()));
            assert!(pairs.map_or(true, |pairs| order_bytes(&pairs).unwrap() == order));
        }
    }
}

#[test]
fn amounts() {
    for reserves in [None, Some(&[0, 4][..])] {
        for amounts in damaged(&amounts_bytes(&[5, 4], &[3], reserves).unwrap()) {
            let lists = amounts_lists(&amounts);
            // the library tests the counts before the length, so it is given a book of these counts, where there can be one
            let counts = [5, 6].map(|at| usize::from(amounts.get(at).copied().unwrap_or(0)));
            if counts.iter().all(|&count| count <= SIDE_MAX) {
                let desk = Desk::new(1, counts[0], counts[1], 0);
                assert_eq!(lists.as_ref().err().copied(), of_form(read_amounts(desk.book(), &amounts).err()));
            } else {
                assert_eq!(lists, Err(Refusal::EndsEarly(File::Amounts)));
            }
            assert!(lists.map_or(true, |lists| amounts_bytes(&lists.lots, &lists.calls, lists.reserves.as_deref()).unwrap() == amounts));
        }
    }
}
