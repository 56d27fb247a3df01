//! An archive's functions at four places in memory, as where they lie alone makes them up to a sixth
//! slower, and a loop of few instructions up to twice as slow.

use std::ffi::{c_char, c_int, c_void, CStr, CString};
use std::fs;
use std::mem::transmute_copy;
use std::path::Path;
use std::process::Command;

const CACHE_LINE: usize = 64;

extern "C" {
    fn dlopen(path: *const c_char, mode: c_int) -> *mut c_void;
    fn dlsym(library: *mut c_void, name: *const c_char) -> *mut c_void;
}

/// To bind every name when the library is loaded.
const RTLD_NOW: c_int = 2;

/// Each a quarter of a cache line further than the one before.
pub const PLACES: [usize; 4] = [0, CACHE_LINE / 4, CACHE_LINE / 2, CACHE_LINE * 3 / 4];

/// An archive at one place.
pub struct Loaded(*mut c_void);

impl Loaded {
    /// Loads an archive's functions, so many bytes behind a cache line's start.
    pub fn new(name: &str, archive: &str, place: usize) -> Self {
        let folder = Path::new(env!("CARGO_TARGET_TMPDIR"));
        let space = folder.join("space.s");
        let library = folder.join(format!("{name}-{place}.so"));
        // One line more, as the assembler warns of none at all.
        let bytes = CACHE_LINE + place;
        let lines =
            format!(".section .note.GNU-stack,\"\",@progbits\n.text\n.p2align 6\n.skip {bytes}\n");
        fs::write(&space, lines).expect("the assembler's file is written");
        let linked = Command::new("cc")
            .args(["-shared", "-nostdlib", "-o"])
            .args([&library, &space])
            .args(["-Wl,--whole-archive", archive, "-Wl,--no-whole-archive"])
            .status();
        assert!(
            linked.is_ok_and(|status| status.success()),
            "cc -shared {archive}"
        );
        let path = CString::new(library.to_str().expect("a path in UTF-8")).expect("no zero byte");
        // SAFETY: the library runs nothing when it is loaded.
        let library = unsafe { dlopen(path.as_ptr(), RTLD_NOW) };
        assert!(!library.is_null(), "{path:?} is not loaded");
        Loaded(library)
    }

    /// The function of that name, whose type `F` must be.
    pub unsafe fn function<F>(&self, name: &CStr) -> F {
        let found = dlsym(self.0, name.as_ptr());
        assert!(!found.is_null(), "{name:?} is missing");
        assert_eq!(size_of::<F>(), size_of_val(&found));
        transmute_copy(&found)
    }
}
