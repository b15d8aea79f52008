//! Lent memory: every slice ends exactly at an unreadable page and has canaries before it.

use std::ffi::c_void;
use std::marker::PhantomData;

extern "C" {
    fn mmap(address: *mut c_void, length: usize, protection: i32, flags: i32, file: i32, offset: i64) -> *mut c_void;
    fn mprotect(address: *mut c_void, length: usize, protection: i32) -> i32;
}

const NO_ACCESS: i32 = 0;
const READ_WRITE: i32 = 3;
const PRIVATE_ANONYMOUS: i32 = 0x22;
const PAGE: usize = 4096;
const CANARY: u8 = 0xC5;

/// Numbers without padding, so that lent memory can be looked at as plain bytes.
pub trait Plain: Copy + PartialEq {}
impl Plain for u8 {}
impl Plain for u32 {}

/// One mapping, kept for the whole run: guard page, canaries, the lent slice, guard page.
pub struct Lent<T: Plain> {
    end: *mut u8,
    capacity: usize,
    length: usize,
    element: PhantomData<T>,
}

impl<T: Plain> Lent<T> {
    /// Room for `capacity` bytes and at least one page of canaries.
    pub fn new(capacity: usize) -> Lent<T> {
        let room = capacity.next_multiple_of(PAGE) + PAGE;
        // SAFETY: a fresh private mapping; its middle is then opened for reading and writing.
        let end = unsafe {
            let base = mmap(std::ptr::null_mut(), room + 2 * PAGE, NO_ACCESS, PRIVATE_ANONYMOUS, -1, 0);
            assert!(base as isize != -1, "no memory to lend");
            let open = base.cast::<u8>().add(PAGE);
            assert!(mprotect(open.cast(), room, READ_WRITE) == 0, "the lent memory cannot be opened");
            open.add(room)
        };
        Lent { end, capacity, length: 0, element: PhantomData }
    }

    /// Places the content right before the guard page and fresh canaries right before the content.
    pub fn fill(&mut self, content: &[T]) {
        let size = std::mem::size_of_val(content);
        assert!(size <= self.capacity, "more content than room");
        self.length = content.len();
        // SAFETY: content and one page before it lie within the open part, see `new`.
        unsafe {
            std::ptr::copy_nonoverlapping(content.as_ptr().cast::<u8>(), self.end.sub(size), size);
            std::ptr::write_bytes(self.end.sub(size + PAGE), CANARY, PAGE);
        }
    }

    /// Where the slice begins. With no elements this is the guard page itself: never null.
    pub fn pointer(&self) -> *mut T {
        // SAFETY: `length` elements fit, see `fill`. The page's end is aligned for every T.
        unsafe { self.end.cast::<T>().sub(self.length) }
    }

    pub fn length(&self) -> usize {
        self.length
    }

    pub fn content(&self) -> &[T] {
        // SAFETY: these elements were written by `fill` and any bytes are a value of T.
        unsafe { std::slice::from_raw_parts(self.pointer(), self.length) }
    }

    pub fn canaries_live(&self) -> bool {
        // SAFETY: the page before the content was written by `fill`.
        let canaries = unsafe { std::slice::from_raw_parts(self.pointer().cast::<u8>().sub(PAGE), PAGE) };
        canaries.iter().all(|&byte| byte == CANARY)
    }
}
