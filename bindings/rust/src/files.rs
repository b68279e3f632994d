//! The three files, made from lists. What the library refuses is not tested here.
use std::fmt;

/// Why some lists fit no file.
#[derive(Clone, Copy, Debug, PartialEq, Eq, Hash)]
#[non_exhaustive]
#[allow(missing_docs)] // the fields are named by the words of each case
pub enum Misfit {
    /// A lot has not as many costs as there are calls.
    Row { lot: usize, costs: usize, calls: usize },
    /// There are more than 255 lots, or more than 255 calls.
    Counts { lots: usize, calls: usize },
    /// The order has more than 65,535 pairs.
    Pairs { pairs: usize },
    /// There are not as many reserves as lots.
    Reserves { reserves: usize, lots: usize },
}

impl fmt::Display for Misfit {
    fn fmt(&self, f: &mut fmt::Formatter<'_>) -> fmt::Result {
        match self {
            Misfit::Row { lot, costs, calls } => write!(f, "lot {lot} has {costs} costs for {calls} calls"),
            Misfit::Counts { lots, calls } => write!(f, "{lots} lots and {calls} calls: a file holds at most 255 of each"),
            Misfit::Pairs { pairs } => write!(f, "{pairs} pairs: an order file holds at most 65,535"),
            Misfit::Reserves { reserves, lots } => write!(f, "{reserves} reserves for {lots} lots"),
        }
    }
}

impl std::error::Error for Misfit {}

fn counts(lots: usize, calls: usize) -> Result<[u8; 2], Misfit> {
    match (u8::try_from(lots), u8::try_from(calls)) {
        (Ok(n), Ok(m)) => Ok([n, m]),
        _ => Err(Misfit::Counts { lots, calls }),
    }
}

fn opening(mark: &[u8; 3], version: u8, [low, high]: [u8; 2]) -> Vec<u8> {
    [&mark[..], &[version, 0, low, high]].concat()
}

/// Makes a book file: of version 2 if a cost is below 0, a rebate, else of version 1.
///
/// `costs` has a row for each lot, with the cost of each call in whole hundredths of a cent per unit. A cost is an `i32`, or where some
/// pairs are not eligible an `Option<i32>`, `None` of those. `calls` is the count of calls, which a desk without lots has no row to tell.
///
/// # Errors
/// [`Misfit::Row`] and [`Misfit::Counts`]. Costs and counts above the library's limits, up to 255 lots and calls, are put in the file, and
/// refused by the library.
///
/// ```
/// use placer::{book_bytes, Misfit};
///
/// // Example F1, and one with rebates where one pair is not eligible.
/// let book = book_bytes(&[[1, 2], [3, 5]], 2)?;
/// assert_eq!(book, b"CLB\x01\0\x02\x02\x03\0\0\0\x01\0\0\0\x02\0\0\0\x03\0\0\0\x03\0\0\0\x05\0\0\0");
/// let book = book_bytes(&[[Some(1), Some(-2)], [None, Some(5)]], 2)?;
/// assert_eq!(book, b"CLB\x02\0\x02\x02\x03\0\0\0\x01\0\0\0\xfe\xff\xff\xff\x02\0\0\0\x05\0\0\0");
///
/// // Two lots and no calls; no lots and two calls.
/// assert_eq!(book_bytes(&[[None; 0]; 2], 0)?, b"CLB\x01\0\x02\0\0\0\0\0\0\0\0\0");
/// assert_eq!(book_bytes(&[[None; 2]; 0], 2)?, b"CLB\x01\0\0\x02");
///
/// // Rows of lists.
/// let rows = vec![vec![1, 2], vec![3]];
/// assert_eq!(book_bytes(&rows, 2), Err(Misfit::Row { lot: 1, costs: 1, calls: 2 }));
/// # Ok::<(), Misfit>(())
/// ```
pub fn book_bytes<Row, Cost>(costs: &[Row], calls: usize) -> Result<Vec<u8>, Misfit>
where
    Row: AsRef<[Cost]>,
    Cost: Copy + Into<Option<i32>>,
{
    let row = |row: &Row| row.as_ref().iter().map(|&cost| cost.into()).collect();
    let rows: Vec<Vec<Option<i32>>> = costs.iter().map(row).collect();
    let rebate = rows.iter().flatten().flatten().any(|&cost| cost < 0);
    let mut file = opening(b"CLB", if rebate { 2 } else { 1 }, counts(rows.len(), calls)?);
    for (lot, row) in rows.iter().enumerate() {
        if row.len() != calls {
            return Err(Misfit::Row { lot, costs: row.len(), calls });
        }
        // Of more than 32 calls the word holds the first 32: such a book is refused before its words are read.
        let word = row.iter().rev().fold(0, |word, cost| word << 1 | u32::from(cost.is_some()));
        file.extend(word.to_le_bytes());
        file.extend(row.iter().flatten().flat_map(|cost| cost.to_le_bytes()));
    }
    Ok(file)
}

/// Makes an order file of the pairs, each a lot and a call, in the order wanted.
///
/// # Errors
/// [`Misfit::Pairs`].
///
/// ```
/// let order = placer::order_bytes(&[(0, 1), (0, 0), (1, 0), (1, 1)])?;
/// assert_eq!(order, b"CLO\x01\0\x04\0\0\x01\0\0\x01\0\x01\x01");
/// # Ok::<(), placer::Misfit>(())
/// ```
pub fn order_bytes(pairs: &[(u8, u8)]) -> Result<Vec<u8>, Misfit> {
    let count = u16::try_from(pairs.len()).map_err(|_| Misfit::Pairs { pairs: pairs.len() })?;
    let mut file = opening(b"CLO", 1, count.to_le_bytes());
    file.extend(pairs.iter().flat_map(|&(lot, call)| [lot, call]));
    Ok(file)
}

/// Makes an amounts file: of version 2 with reserves, else of version 1.
///
/// `lots` is what each lot holds, `calls` what each call asks for, and `reserves` what the desk holds back of each lot, up to all that it
/// holds; all in whole units.
///
/// # Errors
/// [`Misfit::Counts`] and [`Misfit::Reserves`]. Numbers above the library's limits are put in the file, and refused by the library.
///
/// ```
/// use placer::{amounts_bytes, Misfit};
///
/// let amounts = amounts_bytes(&[5, 4], &[3, 6], None)?;
/// assert_eq!(amounts, b"CLA\x01\0\x02\x02\x05\0\0\0\x04\0\0\0\x03\0\0\0\x06\0\0\0");
/// let amounts = amounts_bytes(&[7], &[5], Some(&[2]))?;
/// assert_eq!(amounts, b"CLA\x02\0\x01\x01\x07\0\0\0\x05\0\0\0\x02\0\0\0");
/// assert_eq!(amounts_bytes(&[7, 4], &[5], Some(&[2])), Err(Misfit::Reserves { reserves: 1, lots: 2 }));
/// # Ok::<(), Misfit>(())
/// ```
pub fn amounts_bytes(lots: &[u32], calls: &[u32], reserves: Option<&[u32]>) -> Result<Vec<u8>, Misfit> {
    let counts = counts(lots.len(), calls.len())?;
    if let Some(reserves) = reserves.filter(|reserves| reserves.len() != lots.len()) {
        return Err(Misfit::Reserves { reserves: reserves.len(), lots: lots.len() });
    }
    let mut file = opening(b"CLA", if reserves.is_some() { 2 } else { 1 }, counts);
    file.extend([lots, calls, reserves.unwrap_or_default()].concat().into_iter().flat_map(u32::to_le_bytes));
    Ok(file)
}
