//! Memory to lend, with a page before it and a page behind it that stop the program if they are
//! read or written.

use std::ffi::{c_int, c_void};
use std::process::abort;
use std::ptr::null_mut;
use std::slice;
use std::sync::atomic::{AtomicU64, Ordering};

unsafe extern "C" {
    fn mmap(
        at: *mut c_void,
        len: usize,
        may: c_int,
        how: c_int,
        file: c_int,
        from: i64,
    ) -> *mut c_void;
    fn mprotect(at: *mut c_void, len: usize, may: c_int) -> c_int;
    fn munmap(at: *mut c_void, len: usize) -> c_int;
    fn signal(which: c_int, what: extern "C" fn(c_int)) -> usize;
    fn write(file: c_int, bytes: *const u8, len: usize) -> isize;
}

const BUS: c_int = 7;
const SEGMENT: c_int = 11;

/// What is being tried, as a number that finds it again.
static NOW: AtomicU64 = AtomicU64::new(0);

pub fn now(what: u64) {
    NOW.store(what, Ordering::Relaxed);
}

/// Before a guard stops the program, it says what was being tried.
pub fn say_what_was_touched() {
    for which in [BUS, SEGMENT] {
        // SAFETY: the handler only writes to the error stream and ends the program.
        unsafe { signal(which, touched) };
    }
}

extern "C" fn touched(_: c_int) {
    let mut line = *b"a byte outside a lent slice was touched, in 00000000000000000000\n";
    let mut rest = NOW.load(Ordering::Relaxed);
    let last = line.len() - 1;
    for digit in line[last - 20..last].iter_mut().rev() {
        *digit = b'0' + (rest % 10) as u8;
        rest /= 10;
    }
    // SAFETY: the line is whole; the error stream is open or the write fails.
    unsafe { write(2, line.as_ptr(), line.len()) };
    abort();
}

const NOTHING: c_int = 0;
const READ_AND_WRITE: c_int = 3;
/// Private, and of no file.
const OURS: c_int = 0x22;

/// A multiple of every page size in use.
const GUARD: usize = 65_536;

/// Which guard a slice stands against.
#[derive(Debug, Clone, Copy, PartialEq, Eq)]
pub enum Side {
    Front,
    Back,
}

/// Room for one slice at a time.
pub struct Lent {
    start: *mut u8,
    capacity: usize,
}

impl Lent {
    pub fn new(least: usize) -> Self {
        let capacity = least.max(1).next_multiple_of(GUARD);
        let len = capacity + 2 * GUARD;
        // SAFETY: the system picks a place of its own for a new mapping.
        let base = unsafe { mmap(null_mut(), len, NOTHING, OURS, -1, 0) };
        assert!(base as isize != -1, "no memory for {len} bytes");
        // SAFETY: the guard is shorter than the mapping.
        let start = unsafe { base.byte_add(GUARD) };
        // SAFETY: the part between the guards is ours.
        let done = unsafe { mprotect(start, capacity, READ_AND_WRITE) };
        assert_eq!(done, 0);
        Lent {
            start: start.cast(),
            capacity,
        }
    }

    /// The bytes, against a guard.
    pub fn lend(&mut self, bytes: &[u8], side: Side) -> &mut [u8] {
        if bytes.len() > self.capacity {
            *self = Lent::new(bytes.len());
        }
        let at = match side {
            Side::Front => 0,
            Side::Back => self.capacity - bytes.len(),
        };
        // SAFETY: at + bytes.len() is at most the capacity, all of which may be read and written and
        // was zeroed by the system; the borrow of self keeps any other slice of it away.
        let part = unsafe { slice::from_raw_parts_mut(self.start.add(at), bytes.len()) };
        part.copy_from_slice(bytes);
        part
    }
}

impl Drop for Lent {
    fn drop(&mut self) {
        // SAFETY: this is the whole mapping made in new, and no slice of it outlives self.
        unsafe { munmap(self.start.byte_sub(GUARD).cast(), self.capacity + 2 * GUARD) };
    }
}
