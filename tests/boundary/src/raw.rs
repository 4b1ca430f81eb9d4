//! Pages with inaccessible ones around them, faults, and what valgrind is told.

use crate::place::Place;
use second::loss::{MOST_ROWS, ROW_LENGTH};
use std::arch::asm;
use std::cell::Cell;
use std::ffi::{c_char, c_int, c_long, c_uint};
use std::io::Write;

/// Linux on x86-64, for which the library is.
mod system {
    use super::{c_char, c_int, c_long, c_uint};

    pub const PROT_NONE: c_int = 0;
    pub const PROT_READ: c_int = 1;
    pub const PROT_WRITE: c_int = 2;
    pub const MAP_SHARED: c_int = 1;
    pub const MAP_PRIVATE: c_int = 2;
    pub const MAP_FIXED: c_int = 0x10;
    pub const MAP_ANONYMOUS: c_int = 0x20;
    pub const SIGNALS: [(c_int, &str); 4] =
        [(4, "SIGILL"), (7, "SIGBUS"), (8, "SIGFPE"), (11, "SIGSEGV")];

    extern "C" {
        pub fn mmap(
            address: *mut u8,
            length: usize,
            protection: c_int,
            flags: c_int,
            file: c_int,
            offset: c_long,
        ) -> *mut u8;
        pub fn memfd_create(name: *const c_char, flags: c_uint) -> c_int;
        pub fn ftruncate(file: c_int, length: c_long) -> c_int;
        pub fn close(file: c_int) -> c_int;
        pub fn signal(number: c_int, handler: extern "C" fn(c_int)) -> usize;
        pub fn write(file: c_int, octets: *const u8, count: usize) -> isize;
        pub fn _exit(status: c_int) -> !;
    }
}

const PAGE: usize = 4096;
/// Inaccessible on either side: farther than two lengths of 16 bits reach.
const GUARD: usize = 256 * PAGE;
/// More octets than a packet, table or output of any case has.
pub const MOST: usize = 128 * PAGE;

/// Address space between inaccessible pages. Never given back: pages are made
/// once for each thread and used until the end.
fn reserve(size: usize) -> *mut u8 {
    assert!(size.is_multiple_of(PAGE));
    // SAFETY: a new mapping at an address that the system chooses.
    let whole = unsafe {
        system::mmap(
            std::ptr::null_mut(),
            size + 2 * GUARD,
            system::PROT_NONE,
            system::MAP_PRIVATE | system::MAP_ANONYMOUS,
            -1,
            0,
        )
    };
    mapped(whole).wrapping_add(GUARD)
}

fn mapped(address: *mut u8) -> *mut u8 {
    assert_ne!(address as usize, usize::MAX, "mmap failed");
    address
}

/// Writable octets between inaccessible pages.
pub struct Pages {
    start: *mut u8,
    size: usize,
}

// SAFETY: the pages belong to the value, wherever it goes.
unsafe impl Send for Pages {}

impl Pages {
    pub fn new(size: usize) -> Self {
        let start = reserve(size);
        // SAFETY: the range was reserved just now and nothing else uses it.
        mapped(unsafe {
            system::mmap(
                start,
                size,
                system::PROT_READ | system::PROT_WRITE,
                system::MAP_PRIVATE | system::MAP_ANONYMOUS | system::MAP_FIXED,
                -1,
                0,
            )
        });
        Pages { start, size }
    }

    pub fn size(&self) -> usize {
        self.size
    }

    pub fn octets(&mut self) -> &mut [u8] {
        // SAFETY: `new` mapped these octets for this value alone.
        unsafe { std::slice::from_raw_parts_mut(self.start, self.size) }
    }
}

/// At which inaccessible pages octets lie.
#[derive(Clone, Copy, Debug, PartialEq, Eq)]
pub enum Side {
    /// They end where those begin.
    End,
    /// They begin where those end.
    Start,
}

/// Octets that can be read only, beside inaccessible pages. They are changed
/// through a second view of the same memory, so no call can change them.
pub struct Input {
    view: *const u8,
    writable: *mut u8,
    size: usize,
    at: usize,
    length: usize,
}

// SAFETY: with a shared reference the octets can only be read.
unsafe impl Sync for Input {}
unsafe impl Send for Input {}

impl Input {
    pub fn new() -> Self {
        Input::of_size(MOST)
    }

    pub fn of_size(size: usize) -> Self {
        let start = reserve(size);
        // SAFETY: the view lies where `reserve` made room and nothing else does;
        // the other view is a new mapping; both keep the file after `close`.
        let (view, writable) = unsafe {
            let file = system::memfd_create(c"input".as_ptr(), 0);
            assert!(file >= 0, "memfd_create failed");
            let long = size as c_long;
            assert_eq!(system::ftruncate(file, long), 0, "ftruncate failed");
            let fixed = system::MAP_SHARED | system::MAP_FIXED;
            let view = system::mmap(start, size, system::PROT_READ, fixed, file, 0);
            let both = system::PROT_READ | system::PROT_WRITE;
            let null = std::ptr::null_mut();
            let writable = system::mmap(null, size, both, system::MAP_SHARED, file, 0);
            system::close(file);
            (mapped(view), mapped(writable))
        };
        Input {
            view,
            writable,
            size,
            at: 0,
            length: 0,
        }
    }

    pub fn set(&mut self, octets: &[u8], side: Side) {
        self.length = octets.len();
        let free = self.size.checked_sub(self.length).expect("octets that fit");
        self.at = if side == Side::End { free } else { 0 };
        // SAFETY: `at` and the length are within the view, and no slice of it is
        // lent while the value is borrowed for a change.
        unsafe {
            std::ptr::copy_nonoverlapping(octets.as_ptr(), self.writable.add(self.at), self.length);
            tell(Memory::Inaccessible, self.view, self.size);
        }
        tell(Memory::Defined, self.octets().as_ptr(), self.length);
    }

    pub fn octets(&self) -> &[u8] {
        // SAFETY: within the view, as `set` left it.
        unsafe { std::slice::from_raw_parts(self.view.add(self.at), self.length) }
    }
}

/// What valgrind is to think of octets; memcheck.h has the numbers.
#[derive(Clone, Copy)]
#[repr(u64)]
enum Memory {
    Inaccessible = 0x4d43_0000,
    Undefined = 0x4d43_0001,
    Defined = 0x4d43_0002,
    /// An error if one is undefined.
    Checked = 0x4d43_0005,
}

/// A client request of valgrind (valgrind.h); without valgrind it does nothing.
fn tell(memory: Memory, octets: *const u8, count: usize) {
    let request = [memory as u64, octets as u64, count as u64, 0, 0, 0];
    // SAFETY: the rotations come to 128 bits and the exchange to nothing.
    // Valgrind reads the request and leaves its result in rdx.
    unsafe {
        asm!(
            "rol rdi, 3",
            "rol rdi, 13",
            "rol rdi, 61",
            "rol rdi, 51",
            "xchg rbx, rbx",
            inout("rdi") 0u64 => _,
            in("rax") request.as_ptr(),
            inout("rdx") 0u64 => _,
            options(nostack),
        );
    }
}

/// Before a call: for valgrind the octets before the output are out of bounds
/// and the output's own are undefined, so that no answer may depend on them.
pub fn lend(before: &[u8], out: &[u8]) {
    tell(Memory::Inaccessible, before.as_ptr(), before.len());
    tell(Memory::Undefined, out.as_ptr(), out.len());
}

/// After a call: the octets sent have to be defined; then all may be looked at.
pub fn take_back(before: &[u8], out: &[u8], sent: usize) {
    tell(Memory::Checked, out.as_ptr(), sent.min(out.len()));
    tell(Memory::Defined, before.as_ptr(), before.len());
    tell(Memory::Defined, out.as_ptr(), out.len());
}

/// Before an offer: for valgrind the octets around the rows are out of bounds, and
/// so are the rows past the last that is used.
pub fn lend_rows(before: &[u8], rows: &[u8], behind: &[u8]) {
    let past = rows.get(MOST_ROWS * ROW_LENGTH..).unwrap_or(&[]);
    for octets in [before, past, behind] {
        tell(Memory::Inaccessible, octets.as_ptr(), octets.len());
    }
}

/// Before a burst: for valgrind the octets around output and answer places are out of
/// bounds, and what lies between them is undefined.
pub fn lend_both(around: [&[u8]; 4], written: [&[u8]; 2]) {
    for octets in around {
        tell(Memory::Inaccessible, octets.as_ptr(), octets.len());
    }
    for octets in written {
        tell(Memory::Undefined, octets.as_ptr(), octets.len());
    }
}

/// After a burst: so many octets of each have to be defined; then all may be looked at.
pub fn take_back_both(around: [&[u8]; 4], written: [(&[u8], usize); 2]) {
    for (octets, count) in written {
        tell(Memory::Checked, octets.as_ptr(), count.min(octets.len()));
        tell(Memory::Defined, octets.as_ptr(), octets.len());
    }
    for octets in around {
        tell(Memory::Defined, octets.as_ptr(), octets.len());
    }
}

/// Whole numbers of 32 bits at an address for them.
pub fn numbers(octets: &[u8]) -> &[u32] {
    // SAFETY: any octets are numbers.
    let (before, numbers, behind) = unsafe { octets.align_to() };
    assert!(before.is_empty() && behind.is_empty());
    numbers
}

/// Whole numbers of 64 bits at an address for them.
pub fn places(octets: &mut [u8]) -> &mut [u64] {
    // SAFETY: any octets are numbers, and any numbers octets.
    let (before, places, behind) = unsafe { octets.align_to_mut() };
    assert!(before.is_empty() && behind.is_empty());
    places
}

/// After an offer: what is in use has to be defined; then all may be looked at.
pub fn take_back_rows(before: &[u8], rows: &[u8], behind: &[u8]) {
    let used = rows.len().min(MOST_ROWS * ROW_LENGTH);
    tell(Memory::Checked, rows.as_ptr(), used);
    for octets in [before, rows, behind] {
        tell(Memory::Defined, octets.as_ptr(), octets.len());
    }
}

thread_local! {
    static RUNNING: Cell<Option<Place>> = const { Cell::new(None) };
}

/// What this thread runs from now on, for the message of a fault.
pub fn runs(place: Place) {
    RUNNING.set(Some(place));
}

/// A fault in a call ends the program as a difference: status 1, and a message
/// that says how to run it again.
pub fn report_faults() {
    for (number, _) in system::SIGNALS {
        // SAFETY: the handler keeps to what a handler may do.
        unsafe { system::signal(number, fault) };
    }
}

/// Writes without allocating, and does not return.
extern "C" fn fault(number: c_int) {
    let mut text = [0; 400];
    let mut rest = &mut text[..];
    let name = system::SIGNALS
        .iter()
        .find(|(known, _)| *known == number)
        .map_or("a signal", |(_, name)| name);
    let _ = match RUNNING.get() {
        Some(place) => writeln!(
            rest,
            "boundary: {place}: {name}: octets outside the buffers were touched, or an input was \
             written\n  run again: {}",
            place.command()
        ),
        None => writeln!(rest, "boundary: {name} outside any call"),
    };
    let left = rest.len();
    // SAFETY: the text is on this stack.
    unsafe {
        system::write(2, text.as_ptr(), text.len() - left);
        system::_exit(1);
    }
}
