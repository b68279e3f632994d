//! Ticket panels (request 6).
use super::*;

/// What the panel replies, with a flow of so many entries: 20, the flow kept, exactly where 1 to 4 do not apply and a count is above 8;
/// else reply and flow are those of `find_and_run`.
fn panel(book: &[u8], amounts: &[u8], entries: usize) -> Result<Placed, Refusal> {
    let (mut shown, mut plain) = ([8; PANEL_FLOW_MAX + 1], [8; PANEL_FLOW_MAX + 1]);
    let told = find_and_run_panel(book, amounts, &mut shown[..entries]);
    let by_head = matches!(
        read_book(book),
        Err(Refusal::UnderSeven(_) | Refusal::MarkDiffers(_) | Refusal::VersionNotOne(_) | Refusal::CountOutside)
    );
    if !by_head && (book[5] > 8 || book[6] > 8) {
        assert_eq!((told, shown), (Err(Refusal::AboveEight), plain));
    } else {
        assert_eq!((told, shown), (find_and_run(book, amounts, &mut plain[..entries]), plain));
    }
    told
}

/// A book of at most 8 lots and 8 calls, and its amounts, all the same.
struct Square {
    book: [u8; 295],
    book_len: usize,
    amounts: [u8; 71],
    amounts_len: usize,
}

impl Square {
    /// Every pair is eligible, at the cost lot times call; by grade a lot is for as many of the first calls as its number says, at the cost
    /// lot plus call. In version 2 costs are less by 9.
    fn new(version: u8, lots: usize, calls: usize, amount: u32, by_grade: bool) -> Square {
        let mut square = Square { book: [0; 295], book_len: 7, amounts: [0; 71], amounts_len: 7 + 4 * (lots + calls) };
        square.book[..7].copy_from_slice(&[b'C', b'L', b'B', version, 0, lots as u8, calls as u8]);
        square.amounts[..7].copy_from_slice(&[b'C', b'L', b'A', 1, 0, lots as u8, calls as u8]);
        square.amounts[7..].chunks_mut(4).for_each(|field| field.copy_from_slice(&amount.to_le_bytes()));
        for lot in 0..lots {
            let eligible = if by_grade { calls.min(lot) } else { calls };
            square.put((1 << eligible) - 1);
            for call in 0..eligible {
                let cost = if by_grade { lot + call } else { lot * call };
                square.put(cost as i32 - if version == 2 { 9 } else { 0 });
            }
        }
        square
    }

    /// Adds a field to the book.
    fn put(&mut self, field: i32) {
        self.book[self.book_len..][..4].copy_from_slice(&field.to_le_bytes());
        self.book_len += 4;
    }

    fn book(&self) -> &[u8] {
        &self.book[..self.book_len]
    }

    fn amounts(&self) -> &[u8] {
        &self.amounts[..self.amounts_len]
    }
}

#[test]
fn panel_of_each_size() {
    for (lots, calls) in (0..=8).flat_map(|lots| (0..=8).map(move |calls| (lots, calls))) {
        for (version, amount, by_grade) in [(1, 0, false), (1, 7, false), (2, 1_000_000_000, false), (1, 7, true), (2, 3, true)] {
            let square = Square::new(version, lots, calls, amount, by_grade);
            let placed = panel(square.book(), square.amounts(), lots * calls).unwrap();
            assert!(by_grade || placed.units == lots.min(calls) as u64 * u64::from(amount));
            assert_eq!(panel(square.book(), square.amounts(), PANEL_FLOW_MAX + 1), Ok(placed));
            if let Some(short) = (lots * calls).checked_sub(1) {
                assert_eq!(panel(square.book(), square.amounts(), short), Err(Refusal::BufferTooShort));
            }
        }
    }
}

#[test]
fn panel_eight_by_eight() {
    // the cheapest placing of lot times call: the first lot to the last call, and so on
    for (version, rebate) in [(1, 0), (2, 9)] {
        let (square, mut flow) = (Square::new(version, 8, 8, 5, false), [8; PANEL_FLOW_MAX + 1]);
        let placed = find_and_run_panel(square.book(), square.amounts(), &mut flow).unwrap();
        let least = (0..8).map(|lot| lot * (7 - lot)).sum::<i64>() * 5 - rebate * 40;
        assert_eq!((placed.verdict, placed.units, placed.cost), (Verdict::Full, 40, least));
        for (at, units) in flow[..PANEL_FLOW_MAX].iter().enumerate() {
            assert_eq!(*units, if at / 8 + at % 8 == 7 { 5 } else { 0 });
        }
        assert_eq!(flow[PANEL_FLOW_MAX], 8);
    }
}

#[test]
fn panel_refused_above_eight() {
    // by the counts alone, the rows missing: 4 before 20, 20 before 6
    for (lots, calls) in (0..=255).flat_map(|lots| (0..=255).map(move |calls| (lots, calls))) {
        let told = panel(&[b'C', b'L', b'B', 1, 0, lots, calls], b"", 0);
        let expected = match (lots.max(calls), lots) {
            (33..=255, _) => Refusal::CountOutside,
            (9..=32, _) => Refusal::AboveEight,
            (_, 0) => Refusal::UnderSeven(File::Amounts), // without lots the book has no rows
            _ => Refusal::EndsEarly(File::Book),
        };
        assert_eq!(told, Err(expected));
    }
    // before every other refusal of the book, and after 1, 2 and 3
    for (book, refusal) in [
        (&b"CLB\x01\0\x01\x09\0\x02\0\0"[..], Refusal::AboveEight),
        (b"CLB\x02\0\x01\x09\x01\0\0\0\0\0\0\x80", Refusal::AboveEight),
        (b"CLB\x01\0\0\x09\0", Refusal::AboveEight),
        (b"CLB\x01\0\x09", Refusal::UnderSeven(File::Book)),
        (b"CLA\x01\0\x09\x01", Refusal::MarkDiffers(File::Book)),
        (b"CLB\x03\0\x09\x01", Refusal::VersionNotOne(File::Book)),
    ] {
        assert_eq!(panel(book, b"", 0), Err(refusal));
    }
    // for this call alone
    let desk = Desk::new(1, 9, 1, 0);
    assert_eq!(panel(desk.book(), desk.amounts(), 9), Err(Refusal::AboveEight));
    assert!(read_book(desk.book()).is_ok() && find_and_run_idle(desk.book(), desk.amounts(), &mut [8; 9]).is_ok());
}

#[test]
fn panel_of_damaged_files() {
    // each byte of either file changed to each value, and either file of each length up to some bytes more
    let square = Square::new(2, 2, 3, 4, false);
    let (mut book, mut amounts) = (square.book, square.amounts);
    let (book_len, amounts_len) = (square.book_len, square.amounts_len);
    for (at, byte) in (0..book_len).flat_map(|at| (0..=255).map(move |byte| (at, byte))) {
        book[at] = byte;
        let _ = panel(&book[..book_len], square.amounts(), 6);
        book[at] = square.book[at];
    }
    for (at, byte) in (0..amounts_len).flat_map(|at| (0..=255).map(move |byte| (at, byte))) {
        amounts[at] = byte;
        let _ = panel(square.book(), &amounts[..amounts_len], 6);
        amounts[at] = square.amounts[at];
    }
    for len in 0..=book_len + 1 {
        assert_eq!(panel(&book[..len], square.amounts(), 6).is_ok(), len == book_len);
        assert_eq!(panel(square.book(), &amounts[..len], 6).is_ok(), len == amounts_len);
    }
}

#[test]
fn panel_has_no_order() {
    // F9: 3 by 3, diagonal not eligible, costs 0; 17 comes first
    let mut book = [0; 43];
    book[..7].copy_from_slice(b"CLB\x01\0\x03\x03");
    (book[7], book[19], book[31]) = (6, 5, 3);
    let square = Square::new(1, 3, 3, 1, false);
    assert_eq!(panel(&book, square.amounts(), 8), Err(Refusal::BufferTooShort));
    assert_eq!(panel(&book, square.amounts(), 9), Err(Refusal::NoOrder));
}
