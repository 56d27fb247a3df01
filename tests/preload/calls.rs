//! Loaded into a program before the C library, by `LD_PRELOAD`, so that its calls meet a full disk, a bad sector or a
//! kill where a test wants it.
//!
//! `CALLS_FAIL` is a call's name, which of these calls it is, counted from 1, and an error's number: that call answers -1
//! with it, or, where the number is 0, the program is killed there. `CALLS_MOST` is the most bytes that a call moves.

use std::ffi::{c_char, c_int, c_uint, c_void};
use std::sync::atomic::{AtomicUsize, Ordering};
use std::{env, mem};

const RTLD_NEXT: *mut c_void = -1isize as *mut c_void;
const SIGKILL: c_int = 9;

extern "C" {
    fn dlsym(handle: *mut c_void, name: *const c_char) -> *mut c_void;
    fn __errno_location() -> *mut c_int;
    fn raise(signal: c_int) -> c_int;
}

macro_rules! call {
    ($name:ident($($argument:ident: $type:ty),*) -> $answer:ty) => {
        #[no_mangle]
        unsafe extern "C" fn $name($($argument: $type),*) -> $answer {
            static MADE: AtomicUsize = AtomicUsize::new(0);
            if fails(stringify!($name), 1 + MADE.fetch_add(1, Ordering::Relaxed)) {
                return -1;
            }
            let name = concat!(stringify!($name), "\0");
            let next = dlsym(RTLD_NEXT, name.as_ptr().cast());
            let next: unsafe extern "C" fn($($type),*) -> $answer = mem::transmute(next);
            next($($argument.cut()),*)
        }
    };
}

call!(read(fd: c_int, bytes: *mut c_void, count: usize) -> isize);
call!(write(fd: c_int, bytes: *const c_void, count: usize) -> isize);
call!(fsync(fd: c_int) -> c_int);
call!(close(fd: c_int) -> c_int);
call!(rename(from: *const c_char, to: *const c_char) -> c_int);
call!(unlink(path: *const c_char) -> c_int);
call!(open64(path: *const c_char, flags: c_int, mode: c_uint) -> c_int);
call!(mkdir(path: *const c_char, mode: c_uint) -> c_int);
call!(fchmod(fd: c_int, mode: c_uint) -> c_int);
call!(getentropy(bytes: *mut c_void, count: usize) -> c_int);

unsafe fn fails(name: &str, number: usize) -> bool {
    let asked = env::var("CALLS_FAIL").unwrap_or_default();
    let Some(error) = asked.strip_prefix(&format!("{name} {number} ")) else {
        return false;
    };
    let error = error.parse().expect("an error's number");
    if error == 0 {
        raise(SIGKILL);
    }
    *__errno_location() = error;
    true
}

/// An argument as it is passed on: a count of bytes is no larger than `CALLS_MOST`.
trait Argument {
    fn cut(self) -> Self;
}

impl Argument for usize {
    fn cut(self) -> usize {
        let most = env::var("CALLS_MOST").ok();
        most.map_or(self, |most| self.min(most.parse().expect("a number")))
    }
}

impl Argument for c_int {
    fn cut(self) -> c_int {
        self
    }
}

impl Argument for c_uint {
    fn cut(self) -> c_uint {
        self
    }
}

impl<T> Argument for *const T {
    fn cut(self) -> *const T {
        self
    }
}

impl<T> Argument for *mut T {
    fn cut(self) -> *mut T {
        self
    }
}
