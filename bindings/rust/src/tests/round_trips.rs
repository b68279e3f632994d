//! Files made from lists and taken apart again, of each size and version, and lists that fit no file.
use super::*;

/// Numbers by chance, the same in every run.
struct Chance(u64);

impl Chance {
    fn below(&mut self, limit: u32) -> u32 {
        self.0 = self.0.wrapping_mul(6_364_136_223_846_793_005).wrapping_add(1_442_695_040_888_963_407);
        ((self.0 >> 33) % u64::from(limit)) as u32
    }

    fn numbers(&mut self, count: usize, limit: u32) -> Vec<u32> {
        (0..count).map(|_| self.below(limit)).collect()
    }

    /// Rows of costs from `least` on, one pair in four not eligible.
    fn costs(&mut self, Size { lots, calls }: Size, least: i32) -> Vec<Vec<Option<i32>>> {
        let mut cost = || (self.below(4) > 0).then(|| least + self.below((COST_MAX - least) as u32 + 1) as i32);
        (0..lots).map(|_| (0..calls).map(|_| cost()).collect()).collect()
    }
}

/// Every count of lots with every count of calls.
fn sizes() -> impl Iterator<Item = Size> {
    (0..=SIDE_MAX).flat_map(|lots| (0..=SIDE_MAX).map(move |calls| Size { lots, calls }))
}

#[test]
fn books() {
    let mut chance = Chance(1);
    for (size, least) in sizes().flat_map(|size| [(size, 0), (size, COST_MIN)]) {
        let rows = chance.costs(size, least);
        let book = book_bytes(&rows, size.calls).unwrap();
        let rebate = rows.iter().flatten().flatten().any(|&cost| cost < 0);
        assert_eq!((read_book(&book), book[3]), (Ok(size), if rebate { 2 } else { 1 }));
        assert_eq!(book_costs(&book).unwrap(), rows);
        for (lot, row) in rows.iter().enumerate() {
            let costs: Vec<u8> = row.iter().flatten().flat_map(|cost| cost.to_le_bytes()).collect();
            assert_eq!(lot_costs(&book, lot), costs);
            let call = chance.below(size.calls as u32 + 1) as usize;
            assert_eq!(pair_cost(&book, lot, call), Ok(row.get(call).copied().flatten().map(i64::from)));
        }
    }
}

#[test]
fn books_of_other_rows() {
    let book = book_bytes(&[[1, 2], [3, 5]], 2);
    assert_eq!(book_bytes(&[[Some(1), Some(2)], [Some(3), Some(5)]], 2), book);
    assert_eq!(book_bytes(&[&[1, 2], &[3, 5]], 2), book);
    assert_eq!(book_bytes(&[&[1, 2][..], &[3, 5]], 2), book);
    assert_eq!(book_bytes(&[vec![1, 2], vec![3, 5]], 2), book);
    let rows: Vec<Vec<Option<i32>>> = vec![vec![Some(1), Some(2)], vec![Some(3), Some(5)]];
    assert_eq!(book_bytes(&rows, 2), book);
    assert_eq!(book_bytes(&Vec::<Vec<i32>>::new(), 2).unwrap(), b"CLB\x01\0\0\x02");
}

#[test]
fn orders() {
    let mut chance = Chance(2);
    for count in (0..=1024).chain([65_535]) {
        let pairs: Vec<(u8, u8)> = (0..count).map(|_| (chance.below(256) as u8, chance.below(256) as u8)).collect();
        assert_eq!(order_pairs(&order_bytes(&pairs).unwrap()).unwrap(), pairs);
    }
    // those that are found, with every pair eligible at the cost lot times call
    for Size { lots, calls } in sizes() {
        let rows: Vec<Vec<i32>> = (0..lots as i32).map(|lot| (0..calls as i32).map(|call| lot * call).collect()).collect();
        let (book, mut order) = (book_bytes(&rows, calls).unwrap(), [0; ORDER_MAX]);
        let length = find_order(&book, &mut order).unwrap();
        let pairs = order_pairs(&order[..length]).unwrap();
        assert_eq!((pairs.len(), order_bytes(&pairs).unwrap()), (lots * calls, order[..length].to_vec()));
    }
}

#[test]
fn amounts() {
    let mut chance = Chance(3);
    for (size, reserved) in sizes().flat_map(|size| [(size, false), (size, true)]) {
        let lots = chance.numbers(size.lots, AMOUNT_MAX + 1);
        let calls = chance.numbers(size.calls, AMOUNT_MAX + 1);
        let reserves: Option<Vec<u32>> = reserved.then(|| lots.iter().map(|&lot| chance.below(lot + 1)).collect());
        let file = amounts_bytes(&lots, &calls, reserves.as_deref()).unwrap();
        let reduced = lots.iter().enumerate().map(|(lot, holds)| holds - reserves.as_ref().map_or(0, |reserves| reserves[lot])).collect();
        let lists = amounts_lists(&file).unwrap();
        assert_eq!((lists.reduced(), file[3]), (Ok(reduced), if reserved { 2 } else { 1 }));
        assert_eq!(lists, Amounts { lots, calls, reserves });
        assert_eq!(read_amounts(&book_bytes(&vec![vec![None; size.calls]; size.lots], size.calls).unwrap(), &file), Ok(size));
    }
    let above = Amounts { lots: vec![5, 4], calls: vec![], reserves: Some(vec![0, 5]) };
    assert_eq!(above.reduced(), Err(Refusal::ReserveExceedsLot));
}

#[test]
fn largest_files() {
    let book = |cost| book_bytes(&[[cost; SIDE_MAX]; SIDE_MAX], SIDE_MAX).unwrap();
    assert_eq!([book(COST_MAX), book(COST_MIN)].map(|book| (book.len(), read_book(&book).is_ok())), [(BOOK_MAX, true); 2]);
    assert_eq!(find_order(&book(COST_MAX), &mut [0; ORDER_MAX]), Ok(ORDER_MAX));
    let most = [AMOUNT_MAX; SIDE_MAX];
    let amounts = amounts_bytes(&most, &most, Some(&most)).unwrap();
    assert_eq!((amounts.len(), read_amounts(&book(0), &amounts)), (AMOUNTS_MAX, Ok(Size { lots: SIDE_MAX, calls: SIDE_MAX })));
}

#[test]
fn what_the_library_refuses_is_put_in_a_file() {
    let read = |cost: i32| read_book(&book_bytes(&[[cost]], 1).unwrap());
    assert_eq!([COST_MIN - 1, COST_MAX + 1, i32::MIN, i32::MAX].map(read), [Err(Refusal::CostTooHigh { lot: 0, call: 0 }); 4]);
    for count in SIDE_MAX + 1..=255 {
        let mut row = vec![Some(1); count];
        row[1] = None;
        let wide = book_bytes(&[row], count).unwrap();
        assert_eq!((read_book(&wide), wide.len()), (Err(Refusal::CountOutside), 7 + 4 * count));
        assert_eq!(wide[7..11], [0xfd, 0xff, 0xff, 0xff]);
        assert_eq!(read_book(&book_bytes(&vec![[1]; count], 1).unwrap()), Err(Refusal::CountOutside));
        let lists = Amounts { lots: vec![u32::MAX; count], calls: vec![1; count], reserves: Some(vec![7; count]) };
        let file = amounts_bytes(&lists.lots, &lists.calls, lists.reserves.as_deref()).unwrap();
        assert_eq!(amounts_lists(&file), Ok(lists));
    }
}

#[test]
fn misfits() {
    let told = |misfit: Misfit, sentence: &str| assert_eq!(misfit.to_string(), sentence);
    let row = book_bytes(&[&[1, 2][..], &[3]], 2).unwrap_err();
    assert_eq!(row, Misfit::Row { lot: 1, costs: 1, calls: 2 });
    told(row, "lot 1 has 1 costs for 2 calls");
    assert_eq!(book_bytes(&[[1, 2]], 1), Err(Misfit::Row { lot: 0, costs: 2, calls: 1 }));

    let lots = book_bytes(&[[1]; 256], 1).unwrap_err();
    assert_eq!(lots, Misfit::Counts { lots: 256, calls: 1 });
    told(lots, "256 lots and 1 calls: a file holds at most 255 of each");
    assert_eq!(book_bytes(&[[1; 256]], 256), Err(Misfit::Counts { lots: 1, calls: 256 }));
    assert_eq!(amounts_bytes(&[0; 256], &[], None), Err(Misfit::Counts { lots: 256, calls: 0 }));
    assert_eq!(amounts_bytes(&[], &[0; 256], Some(&[])), Err(Misfit::Counts { lots: 0, calls: 256 }));

    let pairs = order_bytes(&[(0, 0); 65_536]).unwrap_err();
    assert_eq!(pairs, Misfit::Pairs { pairs: 65_536 });
    told(pairs, "65536 pairs: an order file holds at most 65,535");

    let reserves = amounts_bytes(&[5, 4], &[3], Some(&[0])).unwrap_err();
    assert_eq!(reserves, Misfit::Reserves { reserves: 1, lots: 2 });
    told(reserves, "1 reserves for 2 lots");
    assert_eq!(amounts_bytes(&[], &[], Some(&[0])), Err(Misfit::Reserves { reserves: 1, lots: 0 }));
}
