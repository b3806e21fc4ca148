//! Memory that ends, or begins, at a page that cannot be touched: a call that leaves what was lent ends the run.
use std::{ffi::c_void, ptr};

extern "C" {
    fn mmap(at: *mut c_void, n: usize, access: i32, flags: i32, file: i32, offset: i64) -> *mut c_void;
    fn mprotect(at: *mut c_void, n: usize, access: i32) -> i32;
}

const NONE: i32 = 0;
const READ_WRITE: i32 = 3;
const PRIVATE_ANONYMOUS: i32 = 0x22;
const PAGE: usize = 4096;

/// Bytes of the open side that must stay as they are.
const MARGIN: usize = 64;
const MARK: u8 = 0xa5;

pub struct Lent {
    first: *mut u8,
    room: usize,
    placed: (usize, usize),
}

impl Lent {
    /// Room for at most so many bytes, between two pages that cannot be touched.
    pub fn new(most: usize) -> Lent {
        let room = (most + MARGIN).div_ceil(PAGE) * PAGE;
        unsafe {
            let whole = mmap(ptr::null_mut(), room + 2 * PAGE, NONE, PRIVATE_ANONYMOUS, -1, 0);
            assert!(whole as isize != -1, "no memory to lend");
            let first = (whole as *mut u8).add(PAGE);
            assert_eq!(mprotect(first as *mut c_void, room, READ_WRITE), 0);
            Lent { first, room, placed: (0, 0) }
        }
    }

    fn part(&mut self, from: usize, to: usize) -> &mut [u8] {
        assert!(from <= to && to <= self.room);
        unsafe { std::slice::from_raw_parts_mut(self.first.add(from), to - from) }
    }

    fn margin(&mut self) -> &mut [u8] {
        let (from, to) = self.placed;
        if from == 0 { self.part(to, to + MARGIN) } else { self.part(from - MARGIN, from) }
    }

    /// Lends a copy of the bytes: at the end of the room, or at its start.
    pub fn lend(&mut self, bytes: &[u8], at_start: bool) -> *mut u8 {
        let from = if at_start { 0 } else { self.room - bytes.len() };
        self.placed = (from, from + bytes.len());
        self.margin().fill(MARK);
        self.part(from, from + bytes.len()).copy_from_slice(bytes);
        unsafe { self.first.add(from) }
    }

    /// The lent bytes as words.
    pub fn words(&mut self) -> &mut [u32] {
        let (from, to) = self.placed;
        let bytes = self.part(from, to);
        assert_eq!((bytes.len() % 4, bytes.as_ptr().align_offset(4)), (0, 0));
        unsafe { std::slice::from_raw_parts_mut(bytes.as_mut_ptr() as *mut u32, bytes.len() / 4) }
    }

    /// What stands in the lent bytes, and whether nothing beside them was written.
    pub fn back(&mut self) -> (&[u8], bool) {
        let beside = self.margin().iter().all(|b| *b == MARK);
        let (from, to) = self.placed;
        (self.part(from, to), beside)
    }
}

/// The bytes of words.
pub fn bytes(words: &[u32]) -> &[u8] {
    unsafe { std::slice::from_raw_parts(words.as_ptr() as *const u8, 4 * words.len()) }
}
