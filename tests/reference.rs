//! The documents a second time and plainly, document 01 as the requests amend it: each sentence in the obvious way, however slow. Written
//! from the documents and the paper alone. Each `Wrong` is a deliberate error that the comparison has to notice.
use crate::wrong::Wrong;

/// A refusal: its number and its values.
pub type Refused = (u32, Vec<u64>);

pub type Pair = (usize, usize);

/// A readable book: the cost of each pair, `None` where it is not eligible, and where in the file each lot's word stands.
#[derive(Clone)]
pub struct Book {
    pub version: usize,
    pub lots: usize,
    pub calls: usize,
    pub costs: Vec<Vec<Option<i64>>>,
    pub words: Vec<usize>,
}

impl Book {
    /// No lots or no calls: there is no pair.
    pub fn is_new_desk(&self) -> bool {
        self.lots == 0 || self.calls == 0
    }
}

pub fn refuse<T>(number: u32, values: &[usize]) -> Result<T, Refused> {
    Err((number, values.iter().map(|&v| v as u64).collect()))
}

fn bytes(file: &[u8], at: usize) -> [u8; 4] {
    [file[at], file[at + 1], file[at + 2], file[at + 3]]
}

pub fn word(file: &[u8], at: usize) -> usize {
    u32::from_le_bytes(bytes(file, at)) as usize
}

impl Wrong {
    /// The versions that a file may have.
    fn versions(self, mark: &[u8; 3]) -> &[usize] {
        match (self, mark) {
            (Wrong::BookOfVersion0, b"CLB") => &[0, 1, 2],
            (Wrong::BookOfVersion1Alone, b"CLB") => &[1],
            (Wrong::BookOfVersion3, b"CLB") => &[1, 2, 3],
            (Wrong::AmountsOfVersion0, b"CLA") => &[0, 1, 2],
            (Wrong::AmountsOfVersion1Alone, b"CLA") => &[1],
            (Wrong::AmountsOfVersion3, b"CLA") => &[1, 2, 3],
            (Wrong::OrderOfVersion2, b"CLO") | (_, b"CLB" | b"CLA") => &[1, 2],
            _ => &[1],
        }
    }

    /// The version of a file that opens as it must.
    pub fn opening(self, file: &[u8], mark: &[u8; 3]) -> Result<usize, Refused> {
        if self == Wrong::MarkBeforeLength && file.len() >= 3 && &file[..3] != mark {
            return refuse(2, &[]);
        }
        if file.len() < 7 {
            return refuse(1, &[]);
        }
        if &file[..3] != mark {
            return refuse(2, &[]);
        }
        let byte_alone = self == Wrong::VersionByteAlone || (self == Wrong::AmountsVersionByteAlone && mark == b"CLA");
        let version = file[3] as usize + 256 * if byte_alone { 0 } else { file[4] as usize };
        if !self.versions(mark).contains(&version) {
            return refuse(3, &[]);
        }
        Ok(version)
    }

    pub fn too_high(self, number: i64, limit: i64) -> bool {
        number > limit || (self == Wrong::LimitExcluded && number == limit)
    }

    /// A cost in the range of its book's version: 0 to 1,000,000 in version 1; signed, two's complement, from -1,000,000 in version 2.
    fn cost(self, version: usize, bytes: [u8; 4]) -> Option<i64> {
        let (plain, signed) = (u32::from_le_bytes(bytes) as i64, i32::from_le_bytes(bytes) as i64);
        let (cost, least, most) = match self {
            Wrong::SignedInVersion1 => (signed, -1_000_000, 1_000_000),
            _ if version == 1 => (plain, 0, 1_000_000),
            Wrong::UnsignedInVersion2 => (plain, 0, 1_000_000),
            Wrong::SignAndSize => (if signed < 0 { (1 << 31) - plain } else { plain }, -1_000_000, 1_000_000),
            Wrong::LeastCostExcluded => (signed, -999_999, 1_000_000),
            Wrong::OneBelowTheLeastCost => (signed, -1_000_001, 1_000_000),
            Wrong::CostToTwoMillion => (signed, -1_000_000, 2_000_000),
            _ => (signed, -1_000_000, 1_000_000),
        };
        (cost >= least && !self.too_high(cost, most)).then_some(cost)
    }

    /// Version, n and m of a book that opens as it must, without its rows.
    pub fn head(self, file: &[u8]) -> Result<Book, Refused> {
        let version = self.opening(file, b"CLB")?;
        Ok(Book { version, lots: file[5] as usize, calls: file[6] as usize, costs: Vec::new(), words: Vec::new() })
    }

    /// Whether a count is above 32.
    pub fn count_outside(self, book: &Book) -> bool {
        match self {
            Wrong::NoLotsRefused if book.lots == 0 => true,
            Wrong::NoCallsRefused if book.calls == 0 => true,
            Wrong::NewDeskOfVersion1Alone if book.is_new_desk() && book.version == 2 => true,
            Wrong::NewDeskOfVersion2Alone if book.is_new_desk() && book.version == 1 => true,
            Wrong::CountAbove32BesideZero if book.is_new_desk() => false,
            _ => book.lots > 32 || book.calls > 32,
        }
    }

    pub fn read_book(self, file: &[u8]) -> Result<Book, Refused> {
        let mut book = self.head(file)?;
        if self.count_outside(&book) {
            return refuse(4, &[]);
        }
        if self == Wrong::AboveEightEverywhere {
            self.twenty(file)?;
        }
        let mut at = 7;
        for _ in 0..book.lots.max((self == Wrong::OneRowAtLeast) as usize) {
            let (row, end) = self.row(&book, file, at)?;
            book.words.push(at);
            book.costs.push(row);
            at = end;
        }
        if file.len() > at {
            return refuse(8, &[]);
        }
        Ok(book)
    }

    /// The row of the lot after those that were read, which starts at a byte of the file, and where it ends.
    fn row(self, book: &Book, file: &[u8], at: usize) -> Result<(Vec<Option<i64>>, usize), Refused> {
        let (lot, calls) = (book.costs.len(), book.calls);
        if self == Wrong::NoRowsWithoutCalls && calls == 0 {
            return Ok((Vec::new(), at));
        }
        if file.len() < at + 4 {
            return refuse(6, &[]);
        }
        let bits = if self == Wrong::WordNotLookedAtWithoutCalls && calls == 0 { 0 } else { word(file, at) };
        let eligible: Vec<usize> = (0..32).filter(|&call| bits >> call & 1 == 1).collect();
        if eligible.iter().any(|&call| call >= calls) {
            return refuse(5, &[if self == Wrong::LastLotNamedWithoutCalls && calls == 0 { book.lots - 1 } else { lot }]);
        }
        if self != Wrong::CostsOneByOne && file.len() < at + 4 + 4 * eligible.len() {
            return refuse(6, &[]);
        }
        let mut row = vec![None; calls];
        for (position, &call) in eligible.iter().enumerate() {
            let at = at + 4 + 4 * position;
            if file.len() < at + 4 {
                return refuse(6, &[]);
            }
            row[call] = self.cost(book.version, bytes(file, at));
            if row[call].is_none() {
                return refuse(7, &[lot, if self == Wrong::PositionForCall { position } else { call }]);
            }
        }
        Ok((row, at + 4 + 4 * eligible.len()))
    }

    /// Start and length of the stretch of the file with a lot's costs.
    pub fn lot_costs(self, file: &[u8], lot: usize) -> (usize, usize) {
        match self.read_book(file) {
            Ok(book) if lot < book.lots => {
                let count = book.costs[lot].iter().flatten().count();
                match self {
                    Wrong::StretchWithWord => (book.words[lot], 4 + 4 * count),
                    Wrong::WordForCostsWithoutCalls if book.calls == 0 => (book.words[lot], 4),
                    _ if count == 0 && self != Wrong::EmptyStretchAtRow => (0, 0),
                    _ => (book.words[lot] + 4, 4 * count),
                }
            }
            _ => (0, 0),
        }
    }

    /// Whether a pair is eligible, 1 or 0, and its cost or 0.
    pub fn pair_cost(self, file: &[u8], lot: usize, call: usize) -> Result<(u64, i64), Refused> {
        let book = self.read_book(file)?;
        let (lot, call) = if self == Wrong::PairTurnedRound { (call, lot) } else { (lot, call) };
        match book.costs.get(lot).and_then(|row| row.get(call)) {
            Some(Some(cost)) if self == Wrong::PairCostIn32Bits => Ok((1, *cost as u32 as i64)),
            Some(Some(cost)) => Ok((1, *cost)),
            Some(None) if self == Wrong::NotEligibleCostsNothing => Ok((1, 0)),
            None if self == Wrong::NewDeskCostsNothing && book.is_new_desk() => Ok((1, 0)),
            _ => Ok((0, 0)),
        }
    }
}
