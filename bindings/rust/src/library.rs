//! How the library is called: only where its version fits, and so that a refusal says which file it is about.
use crate::sys::{self, Reply};
use crate::version::library_fits;
use crate::{File, Placed, Refusal, Size, Verdict};

/// A run that finds its order itself.
pub type Finding = unsafe extern "C" fn(*const u8, usize, *const u8, usize, *mut u32, usize) -> Reply;

/// What a call of the library tells where it accepts. It is about a book, and perhaps an order.
pub fn accepted(book: &[u8], order: Option<&[u8]>, call: impl FnOnce() -> Reply) -> Result<Reply, Refusal> {
    library_fits()?;
    let reply = call();
    match reply.number {
        0 => Ok(reply),
        _ => Err(Refusal::of(reply, &|| file_refused(book, order))),
    }
}

/// The file that a call refused by 1, 2, 3, 6 or 8: the first that is refused by itself, as a call tests the book, the order and the
/// amounts in turn.
fn file_refused(book: &[u8], order: Option<&[u8]>) -> File {
    if read_book(book).number != 0 {
        File::Book
    } else if order.map_or(false, |order| check_order(book, order).number != 0) {
        File::Order
    } else {
        File::Amounts
    }
}

// SAFETY: below, each pointer is that of a slice and goes with its length; what is written is borrowed mutably.

pub fn read_book(book: &[u8]) -> Reply {
    unsafe { sys::placer_read_book(book.as_ptr(), book.len()) }
}

pub fn check_order(book: &[u8], order: &[u8]) -> Reply {
    unsafe { sys::placer_check_order(book.as_ptr(), book.len(), order.as_ptr(), order.len()) }
}

/// Finds an order and runs it, by one of the library's runs.
pub fn find_and_run(run: Finding, book: &[u8], amounts: &[u8], flow: &mut [u32]) -> Result<Placed, Refusal> {
    let (b, a) = (book.as_ptr(), amounts.as_ptr());
    accepted(book, None, || unsafe { run(b, book.len(), a, amounts.len(), flow.as_mut_ptr(), flow.len()) }).map(placed)
}

pub fn size(reply: Reply) -> Size {
    Size { lots: reply.values[0] as usize, calls: reply.values[1] as usize }
}

pub fn placed(reply: Reply) -> Placed {
    let verdict = match reply.verdict {
        1 => Verdict::Full,
        3 => Verdict::Covered,
        _ => Verdict::Short, // 2 is the only number left of a run
    };
    Placed { verdict, units: reply.values[0], cost: reply.values[1] as i64 }
}
