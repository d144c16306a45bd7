//! Memory whose end is a page that cannot be read, so that a read past the end of
//! an input is a crash, and a report of the input that was being scanned.

use std::{
    cell::Cell,
    ffi::{c_int, c_long, c_void},
    ptr, slice,
};

const PROT_NONE: c_int = 0;
const PROT_READ_WRITE: c_int = 3;
const MAP_PRIVATE_ANONYMOUS: c_int = 0x22;
const SC_PAGESIZE: c_int = 30;
const SIGBUS: c_int = 7;
const SIGSEGV: c_int = 11;
const STDERR: c_int = 2;

extern "C" {
    fn mmap(at: *mut c_void, len: usize, p: c_int, f: c_int, fd: c_int, o: i64) -> *mut c_void;
    fn mprotect(at: *mut c_void, len: usize, protection: c_int) -> c_int;
    fn sysconf(name: c_int) -> c_long;
    fn signal(number: c_int, handler: extern "C" fn(c_int)) -> usize;
    fn write(file: c_int, bytes: *const u8, len: usize) -> isize;
    fn _exit(status: c_int) -> !;
}

/// Some bytes of memory and an unreadable page behind them.
pub struct Fenced {
    /// The unreadable page.
    fence: *mut u8,
    room: usize,
}

impl Fenced {
    /// At least `room` bytes before the fence.
    pub fn new(room: usize) -> Self {
        // SAFETY: asks for memory of its own and changes no other; each answer is
        // looked at before the memory is used.
        unsafe {
            let page = sysconf(SC_PAGESIZE) as usize;
            let room = room.next_multiple_of(page);
            let flags = MAP_PRIVATE_ANONYMOUS;
            let at = mmap(ptr::null_mut(), room + page, PROT_READ_WRITE, flags, -1, 0);
            assert!(at as isize != -1, "no memory for the fence");
            let fence = at.cast::<u8>().add(room);
            let shut = mprotect(fence.cast(), page, PROT_NONE);
            assert!(shut == 0, "the fence cannot be put up");
            Self { fence, room }
        }
    }

    /// Copies bytes so that the fence stands right behind the last of them.
    pub fn place(&mut self, bytes: &[u8]) -> &[u8] {
        assert!(bytes.len() <= self.room, "{} bytes", bytes.len());
        // SAFETY: there is room before the fence, and `self` is borrowed as long as
        // the slice is.
        unsafe {
            let start = self.fence.sub(bytes.len());
            ptr::copy_nonoverlapping(bytes.as_ptr(), start, bytes.len());
            slice::from_raw_parts(start, bytes.len())
        }
    }

    /// The first address that cannot be read.
    pub fn fence(&self) -> *const u8 {
        self.fence
    }
}

thread_local! {
    /// What this thread scans: format number, first byte, length.
    static SCANNED: Cell<(u64, *const u8, usize)> = const { Cell::new((0, ptr::null(), 0)) };
}

/// Notes what is scanned next, for the report of a crash.
#[inline]
pub fn note(format: u64, bytes: &[u8]) {
    SCANNED.set((format, bytes.as_ptr(), bytes.len()));
}

/// From here on a read of memory that cannot be read ends the program with status 1
/// and a line that shows the input.
pub fn report_crashes() {
    // SAFETY: the handler does nothing but write and end the program.
    unsafe {
        signal(SIGSEGV, crashed);
        signal(SIGBUS, crashed);
    }
}

extern "C" fn crashed(_: c_int) {
    let (format, start, length) = SCANNED.get();
    say(b"differential: memory outside the input was read. Format ");
    say(&[b'0' + (format % 10) as u8]);
    say(b", bytes");
    for i in 0..length {
        const DIGITS: &[u8; 16] = b"0123456789abcdef";
        // SAFETY: the input itself can be read.
        let byte = unsafe { *start.add(i) };
        say(&[
            b' ',
            DIGITS[usize::from(byte >> 4)],
            DIGITS[usize::from(byte & 15)],
        ]);
    }
    say(b"\n");
    // SAFETY: ends the program at once.
    unsafe { _exit(1) }
}

fn say(bytes: &[u8]) {
    // SAFETY: the slice can be read; a failed write has nobody to be told.
    unsafe {
        write(STDERR, bytes.as_ptr(), bytes.len());
    }
}
