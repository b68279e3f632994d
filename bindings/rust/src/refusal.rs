//! The refusals by name, and the file that each is about.
use crate::sys::Reply;
use crate::version::{Version, VERSION};
use core::{fmt, mem::discriminant};

/// One of the three files.
#[derive(Clone, Copy, Debug, PartialEq, Eq, Hash)]
pub enum File {
    /// What is eligible, and at what cost.
    Book,
    /// The eligible pairs in turn.
    Order,
    /// What the lots hold, the calls ask for, and the desk holds back.
    Amounts,
}

impl fmt::Display for File {
    fn fmt(&self, f: &mut fmt::Formatter<'_>) -> fmt::Result {
        f.write_str(match self {
            File::Book => "book",
            File::Order => "order",
            File::Amounts => "amounts",
        })
    }
}

/// Why an input is refused, with the number of document 01's table. Lots, calls and places count from 0.
#[derive(Clone, Copy, Debug, PartialEq, Eq, Hash)]
#[non_exhaustive]
#[allow(missing_docs)] // the fields are named by the words of each case
pub enum Refusal {
    /// 1: the file is under 7 bytes.
    UnderSeven(File),
    /// 2: the file does not open with its mark.
    MarkDiffers(File),
    /// 3: the file's version is not 1; of a book or amounts, neither 1 nor 2.
    VersionNotOne(File),
    /// 4: the book's count of lots or calls is above 32.
    CountOutside,
    /// 5: the lot has an eligibility bit for a call that the book does not have.
    BitOutside { lot: usize },
    /// 6: the file ends before its last field.
    EndsEarly(File),
    /// 7: the cost of this lot and call is above 1,000,000 or, in a book of version 2, below -1,000,000.
    CostTooHigh { lot: usize, call: usize },
    /// 8: the file has bytes after its last field.
    BytesAfter(File),
    /// 9: the pair at this place of the order is not in the book or not eligible.
    PairNotEligible { place: usize },
    /// 10: the pair at this place of the order was met before.
    PairMetBefore { place: usize },
    /// 11: (i, j) precedes (i, l) and (k, j) in the order, and (k, l) is not eligible.
    CrossNotEligible { i: usize, j: usize, k: usize, l: usize },
    /// 12: (i, j) precedes (i, l) and (k, j) in the order, and costs more together with (k, l) than those two.
    CrossSumTooHigh { i: usize, j: usize, k: usize, l: usize },
    /// 13: no order exists for this book (with an idle call: for the enlarged book).
    NoOrder,
    /// 14: an eligible pair is missing from the order.
    PairMissing,
    /// 15: the amounts' counts differ from the book's.
    CountsDiffer,
    /// 16: an amount of a lot or call, as the file holds it, is above 1,000,000,000.
    AmountTooHigh,
    /// 17: the buffer is too short.
    BufferTooShort,
    /// 18: with an idle call, the calls' total exceeds the lots' total, less their reserves.
    CallsExceedLots,
    /// 19: with an idle call, the book already has 32 calls.
    NoIdleCall,
    /// 20: for a ticket panel, the book's count of lots or calls is above 8.
    AboveEight,
    /// 21: a reserve is above what its lot holds.
    ReserveExceedsLot,
    /// A number that this crate does not know, of a later library.
    Unknown(u32),
    /// The library's version does not fit this crate's, as [`library_version`](crate::library_version) says. Nothing was asked of it.
    OtherLibrary { library: Version },
}

use Refusal::*;

/// A refusal, made of its values and, where it does not say by itself which file it is about, of the file.
type Made = fn([usize; 4], &dyn Fn() -> File) -> Refusal;

/// The refusals from number 1 on, with their sentences.
const TABLE: [(Made, &str); 21] = [
    (|_, file| UnderSeven(file()), "a file is under 7 bytes"),
    (|_, file| MarkDiffers(file()), "a file does not open with its mark"),
    (|_, file| VersionNotOne(file()), "a file's version is not 1 (of a book or amounts: neither 1 nor 2)"),
    (|_, _| CountOutside, "the book's count of lots or calls is above 32"),
    (|[lot, ..], _| BitOutside { lot }, "an eligibility bit is set for a call that the book does not have"),
    (|_, file| EndsEarly(file()), "a file ends before its last field"),
    (|[lot, call, ..], _| CostTooHigh { lot, call }, "a cost is above 1,000,000 (in a book of version 2: or below -1,000,000)"),
    (|_, file| BytesAfter(file()), "a file has bytes after its last field"),
    (|[place, ..], _| PairNotEligible { place }, "a pair of the order is not in the book or not eligible"),
    (|[place, ..], _| PairMetBefore { place }, "a pair of the order was met before"),
    (|[i, j, k, l], _| CrossNotEligible { i, j, k, l }, "the order has (i, j) before (i, l) and (k, j), and (k, l) is not eligible"),
    (
        |[i, j, k, l], _| CrossSumTooHigh { i, j, k, l },
        "the order has (i, j) before (i, l) and (k, j), which cost less than (i, j) and (k, l)",
    ),
    (|_, _| NoOrder, "no order of this book (with an idle call: of the enlarged book) is good for all amounts"),
    (|_, _| PairMissing, "an eligible pair is missing from the order"),
    (|_, _| CountsDiffer, "the amounts' count of lots or calls differs from the book's"),
    (|_, _| AmountTooHigh, "an amount of a lot or call is above 1,000,000,000"),
    (|_, _| BufferTooShort, "the buffer lent is too short"),
    (|_, _| CallsExceedLots, "the calls' total exceeds the lots' total, less their reserves"),
    (|_, _| NoIdleCall, "the book already has 32 calls, and the idle call would be one more"),
    (|_, _| AboveEight, "the book's count of lots or calls is above 8, the most that a ticket panel shows"),
    (|_, _| ReserveExceedsLot, "a reserve is above what its lot holds"),
];

impl Refusal {
    /// The refusal that a reply tells; `file` is called only for those that do not say by themselves which file they are about.
    pub(crate) fn of(reply: Reply, file: &dyn Fn() -> File) -> Refusal {
        let row = (reply.number as usize).checked_sub(1).and_then(|at| TABLE.get(at));
        row.map_or(Unknown(reply.number), |(made, _)| made(reply.values.map(|value| value as usize), file))
    }

    /// Where it stands in the table.
    fn row(&self) -> Option<usize> {
        TABLE.iter().position(|(made, _)| discriminant(&made([0; 4], &|| File::Book)) == discriminant(self))
    }

    /// The number in document 01's table, 1 to 21, or the one that a later library told. `None` where the library was not asked, as its
    /// version does not fit.
    ///
    /// ```
    /// use placer::{read_book, File, Refusal, VERSION};
    ///
    /// let refusal = read_book(b"CLB").unwrap_err();
    /// assert_eq!((refusal, refusal.number()), (Refusal::UnderSeven(File::Book), Some(1)));
    /// assert_eq!(refusal.to_string(), "a file is under 7 bytes [book]");
    ///
    /// assert_eq!(Refusal::Unknown(99).number(), Some(99));
    /// assert_eq!(Refusal::OtherLibrary { library: VERSION }.number(), None);
    /// ```
    pub fn number(&self) -> Option<u32> {
        match self {
            Unknown(number) => Some(*number),
            _ => self.row().map(|at| at as u32 + 1),
        }
    }

    /// The file that it is about; `None` of a buffer that is too short, of an unknown number, and of a library that does not fit.
    ///
    /// ```
    /// use placer::{amounts_bytes, book_bytes, read_amounts, File, Refusal};
    ///
    /// let (book, amounts) = (book_bytes(&[[1, 2]], 2)?, amounts_bytes(&[5], &[3, 2], None)?);
    /// let told = |book, amounts| read_amounts(book, amounts).unwrap_err();
    /// assert_eq!(told(&book, &amounts[..9]), Refusal::EndsEarly(File::Amounts));
    /// assert_eq!(told(&book, &amounts[..9]).file(), Some(File::Amounts));
    /// assert_eq!(told(&book[..9], &amounts).file(), Some(File::Book));
    /// assert_eq!(Refusal::BufferTooShort.file(), None);
    /// # Ok::<(), placer::Misfit>(())
    /// ```
    pub fn file(&self) -> Option<File> {
        match *self {
            UnderSeven(file) | MarkDiffers(file) | VersionNotOne(file) | EndsEarly(file) | BytesAfter(file) => Some(file),
            CountOutside | BitOutside { .. } | CostTooHigh { .. } | NoOrder | NoIdleCall | AboveEight => Some(File::Book),
            PairNotEligible { .. } | PairMetBefore { .. } | CrossNotEligible { .. } | CrossSumTooHigh { .. } | PairMissing => {
                Some(File::Order)
            }
            CountsDiffer | AmountTooHigh | CallsExceedLots | ReserveExceedsLot => Some(File::Amounts),
            BufferTooShort | Unknown(_) | OtherLibrary { .. } => None,
        }
    }
}

/// The sentence, and in square brackets what is known beside it: a lot, a call, a place, a file.
impl fmt::Display for Refusal {
    fn fmt(&self, f: &mut fmt::Formatter<'_>) -> fmt::Result {
        f.write_str(self.row().map_or("", |at| TABLE[at].1))?;
        match self {
            UnderSeven(file) | MarkDiffers(file) | VersionNotOne(file) | EndsEarly(file) | BytesAfter(file) => write!(f, " [{file}]"),
            BitOutside { lot } => write!(f, " [lot {lot}]"),
            CostTooHigh { lot, call } => write!(f, " [lot {lot}, call {call}]"),
            PairNotEligible { place } | PairMetBefore { place } => write!(f, " [place {place}]"),
            CrossNotEligible { i, j, k, l } | CrossSumTooHigh { i, j, k, l } => write!(f, " [i {i}, j {j}, k {k}, l {l}]"),
            Unknown(number) => write!(f, "not a number of this library [number {number}]"),
            OtherLibrary { library } => {
                let Version { major, minor, .. } = VERSION;
                write!(f, "the library libplacer is of version {library}, this crate needs {major}.{minor} or a later {major}.x")
            }
            _ => Ok(()),
        }
    }
}

#[cfg(feature = "std")]
impl std::error::Error for Refusal {}
