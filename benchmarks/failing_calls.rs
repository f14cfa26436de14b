//! Makes one call of a program fail, for `benchmarks/failing_calls.py`: a library that the loader puts before the C library.
//!
//! `FAILING_CALL=KIND N` fails the Nth call of this kind, counted from 1; with 0 none fails. The kinds: `allocation` (`malloc`,
//! `calloc`, `realloc`, `aligned_alloc`, `posix_memalign`), `open` (`open`, `open64`, `openat`), `read` and `write`, of the two
//! streams. `FAILING_CALL=short N` fails none, and lets each read and write take N bytes at most. To the open file `FAILING_LOG` a line `piece STREAM SIZE` is written for each write that was made, and at the program's
//! end a line with each kind and its number of calls.
use std::ffi::{CStr, c_char, c_int, c_long, c_uint, c_void};
use std::sync::atomic::{AtomicU64, Ordering::Relaxed};

unsafe extern "C" {
    fn getenv(name: *const c_char) -> *const c_char;
    fn syscall(number: c_long, ...) -> c_long;
    fn __errno_location() -> *mut c_int;
    fn __libc_malloc(size: usize) -> *mut c_void;
    fn __libc_calloc(count: usize, size: usize) -> *mut c_void;
    fn __libc_realloc(old: *mut c_void, size: usize) -> *mut c_void;
    fn __libc_memalign(align: usize, size: usize) -> *mut c_void;
}

const READ: c_long = 0;
const WRITE: c_long = 1;
const OPEN_AT: c_long = 257;
const HERE: c_int = -100;
const NO_MEMORY: c_int = 12;
const BROKEN: c_int = 5;

/// A kind of call, and how many there were so far.
struct Kind {
    name: &'static CStr,
    calls: AtomicU64,
}

impl Kind {
    const fn new(name: &'static CStr) -> Kind {
        Kind { name, calls: AtomicU64::new(0) }
    }

    /// The number of the call of this kind that fails, 0 where none does.
    fn wanted(&self) -> u64 {
        let text = unsafe { getenv(c"FAILING_CALL".as_ptr()) };
        if text.is_null() {
            return 0;
        }
        let text = unsafe { CStr::from_ptr(text) }.to_bytes();
        let name = self.name.to_bytes();
        if text.len() > name.len() && text.starts_with(name) && text[name.len()] == b' ' { number(&text[name.len() + 1..]) } else { 0 }
    }

    /// Whether this call, which is counted, is the one that fails.
    fn fails(&self) -> bool {
        self.calls.fetch_add(1, Relaxed) + 1 == self.wanted()
    }
}

static ALLOCATION: Kind = Kind::new(c"allocation");
static OPEN: Kind = Kind::new(c"open");
static READS: Kind = Kind::new(c"read");
static WRITES: Kind = Kind::new(c"write");
static SHORT: Kind = Kind::new(c"short");

/// How many bytes a read or a write may take.
fn taken_at_once(count: usize) -> usize {
    match SHORT.wanted() {
        0 => count,
        most => count.min(most as usize),
    }
}

fn number(text: &[u8]) -> u64 {
    text.iter().fold(0, |sum, digit| sum * 10 + u64::from(digit - b'0'))
}

/// Writes a line to the log, where there is one: a word, and numbers. It takes no memory.
fn log(word: &CStr, numbers: &[u64]) {
    let to = unsafe { getenv(c"FAILING_LOG".as_ptr()) };
    if to.is_null() {
        return;
    }
    let to = number(unsafe { CStr::from_ptr(to) }.to_bytes());
    let (mut line, mut first) = ([b'\n'; 80], 79);
    let mut before = |byte: u8| {
        first -= 1;
        line[first] = byte;
    };
    for number in numbers.iter().rev() {
        let mut left = *number;
        loop {
            before(b'0' + (left % 10) as u8);
            left /= 10;
            if left == 0 {
                break;
            }
        }
        before(b' ');
    }
    word.to_bytes().iter().rev().for_each(|byte| before(*byte));
    unsafe { syscall(WRITE, to, line[first..].as_ptr(), line.len() - first) };
}

extern "C" fn told() {
    for kind in [&ALLOCATION, &OPEN, &READS, &WRITES] {
        log(kind.name, &[kind.calls.load(Relaxed)]);
    }
}

#[used]
#[unsafe(link_section = ".fini_array")]
static AT_THE_END: extern "C" fn() = told;

fn broken() -> isize {
    unsafe { *__errno_location() = BROKEN };
    -1
}

#[unsafe(no_mangle)]
pub extern "C" fn malloc(size: usize) -> *mut c_void {
    if ALLOCATION.fails() { std::ptr::null_mut() } else { unsafe { __libc_malloc(size) } }
}

#[unsafe(no_mangle)]
pub extern "C" fn calloc(count: usize, size: usize) -> *mut c_void {
    if ALLOCATION.fails() { std::ptr::null_mut() } else { unsafe { __libc_calloc(count, size) } }
}

#[unsafe(no_mangle)]
pub extern "C" fn realloc(old: *mut c_void, size: usize) -> *mut c_void {
    if ALLOCATION.fails() { std::ptr::null_mut() } else { unsafe { __libc_realloc(old, size) } }
}

#[unsafe(no_mangle)]
pub extern "C" fn aligned_alloc(align: usize, size: usize) -> *mut c_void {
    if ALLOCATION.fails() { std::ptr::null_mut() } else { unsafe { __libc_memalign(align, size) } }
}

#[unsafe(no_mangle)]
pub extern "C" fn posix_memalign(place: *mut *mut c_void, align: usize, size: usize) -> c_int {
    if ALLOCATION.fails() {
        return NO_MEMORY;
    }
    unsafe { *place = __libc_memalign(align, size) };
    if unsafe { *place }.is_null() { NO_MEMORY } else { 0 }
}

fn opened(folder: c_int, name: *const c_char, flags: c_int, mode: c_uint) -> c_int {
    if OPEN.fails() { broken() as c_int } else { unsafe { syscall(OPEN_AT, folder, name, flags, mode) as c_int } }
}

#[unsafe(no_mangle)]
pub extern "C" fn open(name: *const c_char, flags: c_int, mode: c_uint) -> c_int {
    opened(HERE, name, flags, mode)
}

#[unsafe(no_mangle)]
pub extern "C" fn open64(name: *const c_char, flags: c_int, mode: c_uint) -> c_int {
    opened(HERE, name, flags, mode)
}

#[unsafe(no_mangle)]
pub extern "C" fn openat(folder: c_int, name: *const c_char, flags: c_int, mode: c_uint) -> c_int {
    opened(folder, name, flags, mode)
}

#[unsafe(no_mangle)]
pub extern "C" fn read(file: c_int, bytes: *mut u8, count: usize) -> isize {
    if READS.fails() { broken() } else { unsafe { syscall(READ, file, bytes, taken_at_once(count)) as isize } }
}

#[unsafe(no_mangle)]
pub extern "C" fn write(file: c_int, bytes: *const u8, count: usize) -> isize {
    if file != 1 && file != 2 {
        return unsafe { syscall(WRITE, file, bytes, count) as isize };
    }
    if WRITES.fails() {
        return broken();
    }
    let taken = unsafe { syscall(WRITE, file, bytes, taken_at_once(count)) as isize };
    if taken >= 0 {
        log(c"piece", &[file as u64, taken as u64]);
    }
    taken
}
