//! Inner functions of the library, which the crate `probes` exports for tests and benchmark.

/// The answer of `probe_compare`.
#[repr(C)]
#[derive(Clone, Copy, Debug, PartialEq, Eq)]
pub struct Compared {
    /// 0 if the stretches are equal, 1 if they differ, 2 if they are not the same number of whole words.
    pub verdict: u64,
    /// The first word that differs, counted from 0, or 0 with another verdict.
    pub word: u64,
}

impl Compared {
    pub const EQUAL: Self = Compared {
        verdict: 0,
        word: 0,
    };

    pub const NOT_COMPARED: Self = Compared {
        verdict: 2,
        word: 0,
    };

    pub fn differ(word: usize) -> Self {
        Compared {
            verdict: 1,
            word: word as u64,
        }
    }
}

extern "C" {
    fn probe_compare(a: *const u8, a_len: usize, b: *const u8, b_len: usize) -> Compared;
}

/// Compares two stretches by words of eight bytes.
pub fn compare(a: &[u8], b: &[u8]) -> Compared {
    // SAFETY: the pointers and lengths are those of live slices, which the call only reads.
    unsafe { probe_compare(a.as_ptr(), a.len(), b.as_ptr(), b.len()) }
}
