//! Memory for what is lent to a call: every slice ends where an inaccessible page begins, and has a strip of known bytes before it.
use std::ffi::c_void;

extern "C" {
    fn mmap(at: *mut c_void, length: usize, protection: i32, flags: i32, file: i32, offset: i64) -> *mut u8;
    fn mprotect(at: *mut u8, length: usize, protection: i32) -> i32;
}

const PAGE: usize = 4096;
const STRIP: [u8; 32] = [0xa5; 32];

/// Where a slice starts, and how many items it has.
pub type Part<T> = (*mut T, usize);

/// Memory that ends at an inaccessible page.
pub struct Guarded {
    end: *mut u8,
}

impl Guarded {
    pub fn new(room: usize) -> Guarded {
        let size = (room + STRIP.len() + PAGE - 1) / PAGE * PAGE;
        unsafe {
            let start = mmap(std::ptr::null_mut(), size + PAGE, 3, 0x22, -1, 0);
            assert!(start as isize != -1, "no memory");
            let end = start.add(size);
            assert!(mprotect(end, PAGE, 0) == 0, "no guard page");
            Guarded { end }
        }
    }

    fn start<T>(&self, items: &[T]) -> *mut T {
        unsafe { self.end.sub(std::mem::size_of_val(items)) as *mut T }
    }

    pub fn put<T: Copy>(&self, items: &[T]) -> Part<T> {
        let start = self.start(items);
        unsafe {
            std::ptr::copy_nonoverlapping(STRIP.as_ptr(), (start as *mut u8).sub(STRIP.len()), STRIP.len());
            std::ptr::copy_nonoverlapping(items.as_ptr(), start, items.len());
        }
        (start, items.len())
    }

    pub fn items<T>(&self, (start, length): Part<T>) -> &[T] {
        unsafe { std::slice::from_raw_parts(start, length) }
    }

    pub fn holds<T: Copy + PartialEq>(&self, items: &[T]) -> bool {
        let start = self.start(items);
        let before = unsafe { (start as *mut u8).sub(STRIP.len()) };
        self.items((before, STRIP.len())) == STRIP && self.items((start, items.len())) == items
    }
}
