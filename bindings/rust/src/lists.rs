//! The three files, taken apart into lists.
use crate::{read_book, File, Refusal, Size};
use std::iter::repeat;

/// The 32-bit numbers of some bytes.
fn numbers(bytes: &[u8]) -> impl Iterator<Item = u32> + '_ {
    bytes.chunks_exact(4).map(|field| u32::from_le_bytes([field[0], field[1], field[2], field[3]]))
}

/// The opening of a file and its fields, if it opens with a mark and a version from 1 to `latest`.
fn opened<'a>(bytes: &'a [u8], file: File, mark: &[u8; 3], latest: u8) -> Result<(&'a [u8], &'a [u8]), Refusal> {
    if bytes.len() < 7 {
        return Err(Refusal::UnderSeven(file));
    }
    let (opening, fields) = bytes.split_at(7);
    if opening[..3] != mark[..] {
        return Err(Refusal::MarkDiffers(file));
    }
    if !(1..=latest).contains(&opening[3]) || opening[4] != 0 {
        return Err(Refusal::VersionNotOne(file));
    }
    Ok((opening, fields))
}

/// Refuses fields that are not so many bytes.
fn as_long(fields: &[u8], length: usize, file: File) -> Result<(), Refusal> {
    match fields.len() {
        len if len < length => Err(Refusal::EndsEarly(file)),
        len if len > length => Err(Refusal::BytesAfter(file)),
        _ => Ok(()),
    }
}

/// The costs of a book: for each lot the cost of each call, `None` where not eligible.
///
/// A book without lots has no rows; [`read_book`] tells its count of calls, which [`book_bytes`](crate::book_bytes) takes.
///
/// # Errors
/// Those of [`read_book`].
///
/// ```
/// use placer::{book_bytes, book_costs};
///
/// let costs = book_costs(&book_bytes(&[[Some(1), None], [None, Some(-5)]], 2)?)?;
/// assert_eq!(costs, [[Some(1), None], [None, Some(-5)]]);
/// # Ok::<(), Box<dyn std::error::Error>>(())
/// ```
pub fn book_costs(book: &[u8]) -> Result<Vec<Vec<Option<i32>>>, Refusal> {
    let Size { lots, calls } = read_book(book)?;
    let mut fields = numbers(&book[7..]);
    let mut row = || {
        let word = fields.next().unwrap_or(0);
        (0..calls).map(|call| if word >> call & 1 == 1 { fields.next().map(|cost| cost as i32) } else { None }).collect()
    };
    Ok((0..lots).map(|_| row()).collect())
}

/// The pairs of an order file, held against no book.
///
/// # Errors
/// Refusals 1, 2, 3, 6 and 8 of the order.
///
/// ```
/// use placer::{order_bytes, order_pairs, File, Refusal};
///
/// let order = order_bytes(&[(0, 1), (0, 0)])?;
/// assert_eq!(order_pairs(&order)?, [(0, 1), (0, 0)]);
/// assert_eq!(order_pairs(&order[..10]), Err(Refusal::EndsEarly(File::Order)));
/// # Ok::<(), Box<dyn std::error::Error>>(())
/// ```
pub fn order_pairs(order: &[u8]) -> Result<Vec<(u8, u8)>, Refusal> {
    let (opening, fields) = opened(order, File::Order, b"CLO", 1)?;
    as_long(fields, 2 * usize::from(u16::from_le_bytes([opening[5], opening[6]])), File::Order)?;
    Ok(fields.chunks_exact(2).map(|pair| (pair[0], pair[1])).collect())
}

/// What an amounts file holds, in the order of [`amounts_bytes`](crate::amounts_bytes).
#[derive(Clone, Debug, PartialEq, Eq, Hash)]
pub struct Amounts {
    /// What each lot holds, with what is reserved of it.
    pub lots: Vec<u32>,
    /// What each call asks for.
    pub calls: Vec<u32>,
    /// What the desk holds back of each lot; `None` if the file is of version 1.
    pub reserves: Option<Vec<u32>>,
}

impl Amounts {
    /// The lots' amounts in every run: what each holds less its reserve.
    ///
    /// # Errors
    /// Refusal 21: a reserve is above what its lot holds.
    ///
    /// ```
    /// use placer::{amounts_bytes, amounts_lists};
    ///
    /// let amounts = amounts_lists(&amounts_bytes(&[7, 4], &[3, 6], Some(&[2, 0]))?)?;
    /// assert_eq!((&amounts.lots[..], amounts.reduced()?), (&[7, 4][..], vec![5, 4]));
    /// # Ok::<(), Box<dyn std::error::Error>>(())
    /// ```
    pub fn reduced(&self) -> Result<Vec<u32>, Refusal> {
        let reserves = self.reserves.iter().flatten().chain(repeat(&0));
        self.lots.iter().zip(reserves).map(|(lot, reserve)| lot.checked_sub(*reserve).ok_or(Refusal::ReserveExceedsLot)).collect()
    }
}

/// What the lots hold, what the calls ask for, and the reserves, held against no book.
///
/// # Errors
/// Refusals 1, 2, 3, 6 and 8 of the amounts.
///
/// ```
/// use placer::{amounts_bytes, amounts_lists, Amounts};
///
/// let amounts = amounts_lists(&amounts_bytes(&[5, 4], &[3, 6], None)?)?;
/// assert_eq!(amounts, Amounts { lots: vec![5, 4], calls: vec![3, 6], reserves: None });
/// # Ok::<(), Box<dyn std::error::Error>>(())
/// ```
pub fn amounts_lists(amounts: &[u8]) -> Result<Amounts, Refusal> {
    let (opening, fields) = opened(amounts, File::Amounts, b"CLA", 2)?;
    let (lots, calls, reserved) = (usize::from(opening[5]), usize::from(opening[6]), opening[3] == 2);
    as_long(fields, 4 * (lots + calls + if reserved { lots } else { 0 }), File::Amounts)?;
    let mut rest = numbers(fields);
    let mut take = |count| rest.by_ref().take(count).collect();
    Ok(Amounts { lots: take(lots), calls: take(calls), reserves: reserved.then(|| take(lots)) })
}
