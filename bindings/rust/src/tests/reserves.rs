//! Amounts of version 2 (request 7): a lot's amount is what it holds less its reserve.
use super::*;

const F1: &[u8; 31] = b"CLB\x01\0\x02\x02\x03\0\0\0\x01\0\0\0\x02\0\0\0\x03\0\0\0\x03\0\0\0\x05\0\0\0";
const F1_ORDER: &[u8; 15] = b"CLO\x01\0\x04\0\0\x01\0\0\x01\0\x01\x01";
const SPARE: &[u8; 31] = b"CLB\x01\0\x02\x02\x03\0\0\0\x03\0\0\0\x05\0\0\0\x03\0\0\0\x01\0\0\0\x02\0\0\0";

/// An amounts file, with room for two fields more.
struct AmountsFile {
    bytes: [u8; AMOUNTS_MAX + 8],
    len: usize,
}

impl AmountsFile {
    /// Of version 2 with reserves, else of version 1.
    fn new(lots: &[u32], calls: &[u32], reserves: Option<&[u32]>) -> AmountsFile {
        let mut file = AmountsFile { bytes: [0; AMOUNTS_MAX + 8], len: 7 };
        file.bytes[..7].copy_from_slice(&[b'C', b'L', b'A', 1, 0, lots.len() as u8, calls.len() as u8]);
        file.bytes[3] += reserves.is_some() as u8;
        for field in lots.iter().chain(calls).chain(reserves.unwrap_or_default()) {
            file.bytes[file.len..][..4].copy_from_slice(&field.to_le_bytes());
            file.len += 4;
        }
        file
    }

    /// The same bytes marked as of another version.
    fn of_version(mut self, low: u8, high: u8) -> AmountsFile {
        self.bytes[3..5].copy_from_slice(&[low, high]);
        self
    }

    /// Its bytes and so many zeros, or without so many of its bytes.
    fn longer(&self, by: isize) -> &[u8] {
        &self.bytes[..(self.len as isize + by) as usize]
    }
}

type Told = Result<(Placed, [u32; 5]), Refusal>;

/// What the four runs tell of a book of two lots and two calls, with the flow; a refusal leaves it.
fn runs(book: &[u8], amounts: &[u8]) -> [Told; 4] {
    let mut order = [0; 15];
    let _ = find_order(book, &mut order);
    let told = |run: &dyn Fn(&mut [u32]) -> Result<Placed, Refusal>| {
        let mut flow = [8; 5];
        let told = run(&mut flow);
        assert!(told.is_ok() || flow == [8; 5]);
        told.map(|placed| (placed, flow))
    };
    [
        told(&|flow| run_order(book, &order, amounts, flow)),
        told(&|flow| find_and_run(book, amounts, flow)),
        told(&|flow| find_and_run_idle(book, amounts, flow)),
        told(&|flow| find_and_run_panel(book, amounts, flow)),
    ]
}

#[test]
fn reserves_are_not_placed_and_not_left() {
    let full = Placed { verdict: Verdict::Full, units: 9, cost: 24 };
    assert_eq!(runs(F1, AmountsFile::new(&[7, 4], &[3, 6], Some(&[2, 0])).longer(0)), [Ok((full, [0, 5, 3, 1, 8])); 4]);
    let nothing = Placed { verdict: Verdict::Full, units: 0, cost: 0 };
    assert_eq!(
        runs(F1, AmountsFile::new(&[AMOUNT_MAX, 4], &[0, 0], Some(&[AMOUNT_MAX, 4])).longer(0)),
        [Ok((nothing, [0, 0, 0, 0, 8])); 4]
    );
    // 2 units of the dear lot stay in the box beside 2 reserved ones
    let [_, plain, idle, _] = runs(SPARE, AmountsFile::new(&[5, 4], &[3, 2], Some(&[2, 0])).longer(0));
    assert_eq!(plain, Ok((Placed { verdict: Verdict::Covered, units: 5, cost: 13 }, [3, 0, 0, 2, 8])));
    assert_eq!(idle, Ok((Placed { verdict: Verdict::Covered, units: 5, cost: 9 }, [1, 0, 2, 2, 8])));
    // 18 by the reduced amounts: the lots hold 7, and have 4 for calls of 5
    assert_eq!(runs(SPARE, AmountsFile::new(&[3, 4], &[3, 2], Some(&[2, 1])).longer(0))[2], Err(Refusal::CallsExceedLots));
}

#[test]
fn reserves_as_reduced_amounts() {
    // every run replies and writes as with amounts of version 1 that are less by the reserves, with books of either version
    let mut rebates = *SPARE;
    rebates[3] = 2;
    for number in 0..1 << 12 {
        let [a, b, c, d, first, second] = [0, 2, 4, 6, 8, 10].map(|bits| number >> bits & 3);
        let held = AmountsFile::new(&[a, b], &[c, d], Some(&[first, second]));
        for book in [F1, SPARE, &rebates] {
            if first > a || second > b {
                assert_eq!(runs(book, held.longer(0)), [Err(Refusal::ReserveExceedsLot); 4]);
                assert_eq!(read_amounts(book, held.longer(0)), Err(Refusal::ReserveExceedsLot));
            } else {
                let reduced = AmountsFile::new(&[a - first, b - second], &[c, d], None);
                assert_eq!(runs(book, held.longer(0)), runs(book, reduced.longer(0)));
                assert_eq!(read_amounts(book, held.longer(0)), Ok(Size { lots: 2, calls: 2 }));
            }
        }
    }
}

#[test]
fn lengths_of_each_version() {
    let refused = |amounts: &[u8], refusal| {
        assert_eq!(runs(F1, amounts), [Err(refusal); 4]);
        assert_eq!(read_amounts(F1, amounts), Err(refusal));
    };
    let (plain, held) = (|| AmountsFile::new(&[5, 4], &[3, 6], None), || AmountsFile::new(&[5, 4], &[3, 6], Some(&[0, 0])));
    assert_eq!((plain().len, held().len), (23, 31));
    assert_eq!(runs(F1, plain().longer(0)), runs(F1, held().longer(0)));
    for by in 1..=8 {
        refused(plain().longer(by), Refusal::BytesAfter(File::Amounts));
        refused(held().longer(by), Refusal::BytesAfter(File::Amounts));
        refused(held().longer(-by), Refusal::EndsEarly(File::Amounts));
    }
    refused(plain().of_version(2, 0).longer(0), Refusal::EndsEarly(File::Amounts));
    refused(held().of_version(1, 0).longer(0), Refusal::BytesAfter(File::Amounts));
    for (low, high) in [(0, 0), (3, 0), (255, 0), (0, 1), (1, 1), (2, 1), (0, 2)] {
        refused(plain().of_version(low, high).longer(0), Refusal::VersionNotOne(File::Amounts));
        refused(held().of_version(low, high).longer(0), Refusal::VersionNotOne(File::Amounts));
    }
}

#[test]
fn reserves_refused_in_turn() {
    let told = |lots: [u32; 2], calls: [u32; 2], reserves: [u32; 2]| {
        let file = AmountsFile::new(&lots, &calls, Some(&reserves));
        let told = read_amounts(F1, file.longer(0));
        assert!(told.is_ok() || runs(F1, file.longer(0)) == [Err(told.unwrap_err()); 4]);
        told.err()
    };
    // equal is allowed; 21 also above the limit of amounts, and 16 only for what the file holds, in every lot and call before any 21
    assert_eq!(told([AMOUNT_MAX, 4], [0, 0], [AMOUNT_MAX, 4]), None);
    for reserve in [6, AMOUNT_MAX, AMOUNT_MAX + 1, u32::MAX] {
        assert_eq!(told([5, 4], [3, 6], [reserve, 0]), Some(Refusal::ReserveExceedsLot));
        assert_eq!(told([4, 5], [3, 6], [0, reserve]), Some(Refusal::ReserveExceedsLot));
    }
    assert_eq!(told([AMOUNT_MAX + 1, 4], [3, 6], [AMOUNT_MAX, 0]), Some(Refusal::AmountTooHigh));
    assert_eq!(told([5, AMOUNT_MAX + 1], [3, 6], [6, 0]), Some(Refusal::AmountTooHigh));
    assert_eq!(told([5, 4], [3, AMOUNT_MAX + 1], [6, 0]), Some(Refusal::AmountTooHigh));

    // the number alone; 6 and 8 before 21; 21 before 18 and 17; a refused order before 21
    let over = AmountsFile::new(&[0, 0], &[3, 6], Some(&[1, 0]));
    let reply = unsafe { sys::placer_read_amounts(F1.as_ptr(), F1.len(), over.bytes.as_ptr(), over.len) };
    assert_eq!(reply, Reply { number: 21, verdict: 0, values: [0; 4] });
    assert_eq!(read_amounts(F1, over.longer(-1)), Err(Refusal::EndsEarly(File::Amounts)));
    assert_eq!(read_amounts(F1, over.longer(1)), Err(Refusal::BytesAfter(File::Amounts)));
    for run in [find_and_run, find_and_run_idle, find_and_run_panel] {
        assert_eq!(run(F1, over.longer(0), &mut []), Err(Refusal::ReserveExceedsLot));
    }
    assert_eq!(run_order(F1, F1_ORDER, over.longer(0), &mut []), Err(Refusal::ReserveExceedsLot));
    assert_eq!(run_order(F1, &F1_ORDER[..14], over.longer(0), &mut []), Err(Refusal::EndsEarly(File::Order)));

    // 20 before 21, which comes before 19
    let (many, file) = (Desk::new(1, 1, 32, 0), AmountsFile::new(&[0], &[0; 32], Some(&[1])));
    assert_eq!(find_and_run_panel(many.book(), file.longer(0), &mut []), Err(Refusal::AboveEight));
    assert_eq!(find_and_run_idle(many.book(), file.longer(0), &mut []), Err(Refusal::ReserveExceedsLot));
}

#[test]
fn reserves_of_each_size() {
    // books with no eligible pair, and calls that want nothing: all is held back, or all but a unit of the last lot
    for (lots, calls) in (0..=SIDE_MAX).flat_map(|lots| (0..=SIDE_MAX).map(move |calls| (lots, calls))) {
        let (desk, holds) = (Desk::new(1, lots, calls, 0), [AMOUNT_MAX; SIDE_MAX]);
        for left in [false, true].into_iter().take(1 + lots) {
            let mut reserves = holds;
            reserves[lots.saturating_sub(1)] -= left as u32;
            let file = AmountsFile::new(&holds[..lots], &[0; SIDE_MAX][..calls], Some(&reserves[..lots]));
            assert_eq!(file.len, 7 + 4 * (2 * lots + calls));
            assert_eq!(read_amounts(desk.book(), file.longer(0)), Ok(Size { lots, calls }));
            assert_eq!(read_amounts(desk.book(), file.longer(1)), Err(Refusal::BytesAfter(File::Amounts)));
            let placed = find_and_run(desk.book(), file.longer(0), &mut [8; FLOW_MAX]).unwrap();
            assert_eq!((placed.verdict, placed.units), (if left { Verdict::Covered } else { Verdict::Full }, 0));
        }
    }
    assert_eq!(AmountsFile::new(&[0; 32], &[0; 32], Some(&[0; 32])).len, AMOUNTS_MAX);
}
