//! Memory for lending: whole pages between two that are mapped to nothing, so that a read or a write past either end is a fault.
//!
//! Memory that is lent to be read is mapped twice, once to fill it and once, read-only and between its guards, to lend it: a write to
//! an input is a fault as well.
use std::ffi::{c_char, c_int, c_long, c_uint, c_void};

extern "C" {
    fn mmap(at: *mut c_void, bytes: usize, prot: c_int, flags: c_int, file: c_int, offset: c_long) -> *mut c_void;
    fn munmap(at: *mut c_void, bytes: usize) -> c_int;
    fn memfd_create(name: *const c_char, flags: c_uint) -> c_int;
    fn ftruncate(file: c_int, bytes: c_long) -> c_int;
    fn close(file: c_int) -> c_int;
    fn sysconf(name: c_int) -> c_long;
}

const PROT_NONE: c_int = 0;
const PROT_READ: c_int = 1;
const PROT_WRITE: c_int = 2;
const MAP_SHARED: c_int = 1;
const MAP_PRIVATE: c_int = 2;
const MAP_FIXED: c_int = 16;
const MAP_ANONYMOUS: c_int = 32;
const SC_PAGESIZE: c_int = 30;

/// How many bytes a page has.
pub fn page() -> usize {
    // SAFETY: sysconf reads a number of the system's
    unsafe { sysconf(SC_PAGESIZE) as usize }
}

fn mapped(at: *mut c_void) -> *mut c_void {
    assert!(at as isize != -1, "mmap: {}", std::io::Error::last_os_error());
    at
}

/// Pages between two guards.
pub struct Region {
    // the guard before, the pages, the guard behind
    whole: *mut c_void,
    whole_bytes: usize,
    // where to fill them; the lent pages themselves where they may be written
    fill: *mut u8,
    bytes: usize,
    written: bool,
}

impl Region {
    /// At least so many bytes, in whole pages, and at least one.
    pub fn new(bytes: usize, written: bool) -> Region {
        let page = page();
        let bytes = bytes.max(1).div_ceil(page) * page;
        let whole_bytes = bytes + 2 * page;
        // SAFETY: a new mapping of our own, of which the inner pages are mapped anew at a place that is ours; nothing else refers to it
        unsafe {
            let whole = mapped(mmap(std::ptr::null_mut(), whole_bytes, PROT_NONE, MAP_PRIVATE | MAP_ANONYMOUS, -1, 0));
            let inner = whole.byte_add(page);
            let fill = if written {
                let flags = MAP_PRIVATE | MAP_ANONYMOUS | MAP_FIXED;
                mapped(mmap(inner, bytes, PROT_READ | PROT_WRITE, flags, -1, 0))
            } else {
                let file = memfd_create(c"lent".as_ptr(), 0);
                assert!(file >= 0 && ftruncate(file, bytes as c_long) == 0, "{}", std::io::Error::last_os_error());
                mapped(mmap(inner, bytes, PROT_READ, MAP_SHARED | MAP_FIXED, file, 0));
                let fill = mapped(mmap(std::ptr::null_mut(), bytes, PROT_READ | PROT_WRITE, MAP_SHARED, file, 0));
                close(file);
                fill
            };
            Region { whole, whole_bytes, fill: fill.cast(), bytes, written }
        }
    }

    pub fn bytes(&self) -> usize {
        self.bytes
    }

    /// Where the lent pages begin.
    pub fn lent(&self) -> *mut u8 {
        self.whole.cast::<u8>().wrapping_add(page_of(self))
    }

    /// The bytes, to fill and to look at.
    pub fn contents(&mut self) -> &mut [u8] {
        // SAFETY: the mapping has so many bytes, may be written, lives as long as self, and is borrowed through it
        unsafe { std::slice::from_raw_parts_mut(self.fill, self.bytes) }
    }
}

fn page_of(region: &Region) -> usize {
    (region.whole_bytes - region.bytes) / 2
}

impl Drop for Region {
    fn drop(&mut self) {
        // SAFETY: both mappings are this region's own
        unsafe {
            munmap(self.whole, self.whole_bytes);
            if !self.written {
                munmap(self.fill.cast(), self.bytes);
            }
        }
    }
}

/// Regions kept for use again, one set for each place in a call's list of arguments.
#[derive(Default)]
pub struct Pool {
    kept: std::collections::HashMap<(usize, usize, bool), Region>,
}

// larger ones are made to measure, and given back
const MOST_KEPT: usize = 64;

impl Pool {
    /// Has the region for an argument of so many bytes: a power of two of pages, so that some slices fill theirs and have a guard at
    /// both ends at once; or, where they are many, as few as will do.
    pub fn region(&mut self, argument: usize, bytes: usize, written: bool) -> Region {
        let pages = bytes.max(1).div_ceil(page());
        if pages > MOST_KEPT {
            return Region::new(bytes, written);
        }
        let pages = pages.next_power_of_two();
        self.kept.remove(&(argument, pages, written)).unwrap_or_else(|| Region::new(pages * page(), written))
    }

    pub fn give_back(&mut self, argument: usize, region: Region) {
        let pages = region.bytes() / page();
        if pages <= MOST_KEPT {
            self.kept.insert((argument, pages, region.written), region);
        }
    }
}
