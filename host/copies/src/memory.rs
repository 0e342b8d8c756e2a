//! Where a copy is lent from: amid other bytes, or beside memory that cannot be read.
use std::ptr::null_mut;

/// At least so many bytes stand on each side of a copy.
const MARGIN: usize = 256;

/// Bytes, over and over, with room for a copy among them.
pub struct Amid {
    around: Vec<u8>,
    all: Vec<u8>,
}

impl Amid {
    pub fn new(around: &[u8]) -> Amid {
        Amid { around: around.to_vec(), all: vec![] }
    }

    /// The copy at the beginning of one of the turns: where it is cut off, its bytes go on as they were.
    pub fn place(&mut self, copy: &[u8]) -> &[u8] {
        let turns = 2 + (copy.len() + 2 * MARGIN) / self.around.len();
        let at = MARGIN.next_multiple_of(self.around.len());
        self.all.clear();
        (0..turns).for_each(|_| self.all.extend(&self.around));
        self.all[at..at + copy.len()].copy_from_slice(copy);
        &self.all[at..at + copy.len()]
    }
}

extern "C" {
    fn mmap(at: *mut u8, length: usize, access: i32, flags: i32, file: i32, offset: i64) -> *mut u8;
    fn mprotect(at: *mut u8, length: usize, access: i32) -> i32;
}

const NO_ACCESS: i32 = 0;
const READ_AND_WRITE: i32 = 3;
const PRIVATE_AND_OF_NO_FILE: i32 = 0x22;

/// A whole number of pages, whatever their size.
const PAGES: usize = 65536;

/// Memory between two stretches that cannot be read: a read outside ends the program.
pub struct Guarded(&'static mut [u8]);

impl Guarded {
    pub fn new() -> Guarded {
        unsafe {
            let all = mmap(null_mut(), 3 * PAGES, NO_ACCESS, PRIVATE_AND_OF_NO_FILE, -1, 0);
            assert!(all as isize != -1, "no memory");
            let between = all.add(PAGES);
            assert!(mprotect(between, PAGES, READ_AND_WRITE) == 0, "no access to the memory");
            Guarded(std::slice::from_raw_parts_mut(between, PAGES))
        }
    }

    pub fn at_start(&mut self, copy: &[u8]) -> &[u8] {
        let place = &mut self.0[..copy.len()];
        place.copy_from_slice(copy);
        place
    }

    pub fn at_end(&mut self, copy: &[u8]) -> &[u8] {
        let place = &mut self.0[PAGES - copy.len()..];
        place.copy_from_slice(copy);
        place
    }
}
