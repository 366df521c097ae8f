//! Memory between two pages that nobody may touch. Not every test lends all kinds of it.
#![allow(dead_code)]

use std::slice;

const PAGE: usize = 4096;
const NONE: i32 = 0;
const READ_WRITE: i32 = 3;
const PRIVATE_ANONYMOUS: i32 = 0x22;

extern "C" {
    fn mmap(at: *mut u8, length: usize, protection: i32, flags: i32, file: i32, offset: i64) -> *mut u8;
    fn mprotect(at: *mut u8, length: usize, protection: i32) -> i32;
    fn munmap(at: *mut u8, length: usize) -> i32;
}

pub struct Guarded {
    base: *mut u8,
    length: usize,
    at: *mut u8,
    bytes: usize,
}

impl Guarded {
    /// Room for so many bytes, flush with the page before it or with the page behind it.
    pub fn new(bytes: usize, behind: bool) -> Guarded {
        let inner = (bytes + PAGE - 1) / PAGE * PAGE;
        let length = inner + 2 * PAGE;
        // SAFETY: a fresh mapping, of which only the inner pages are handed out, and only while this lives.
        unsafe {
            let base = mmap(std::ptr::null_mut(), length, NONE, PRIVATE_ANONYMOUS, -1, 0);
            assert!(!base.is_null() && base as isize != -1, "no memory");
            if inner > 0 {
                assert_eq!(mprotect(base.add(PAGE), inner, READ_WRITE), 0);
            }
            let at = base.add(PAGE + if behind { inner - bytes } else { 0 });
            Guarded { base, length, at, bytes }
        }
    }

    pub fn bytes(&mut self) -> &mut [u8] {
        // SAFETY: inside the mapping, and borrowed from it.
        unsafe { slice::from_raw_parts_mut(self.at, self.bytes) }
    }

    pub fn words(&mut self) -> &mut [u32] {
        assert_eq!(self.at as usize % 4, 0);
        // SAFETY: as above, aligned, and every pattern is a word.
        unsafe { slice::from_raw_parts_mut(self.at.cast(), self.bytes / 4) }
    }

    pub fn long_words(&mut self) -> &mut [u64] {
        assert_eq!(self.at as usize % 8, 0);
        // SAFETY: as above.
        unsafe { slice::from_raw_parts_mut(self.at.cast(), self.bytes / 8) }
    }
}

/// These bytes, flush with the page before them or behind them.
pub fn bytes(bytes: &[u8], behind: bool) -> Guarded {
    let mut lent = Guarded::new(bytes.len(), behind);
    lent.bytes().copy_from_slice(bytes);
    lent
}

/// The same of words of 32 bits.
pub fn words(words: &[u32], behind: bool) -> Guarded {
    let mut lent = Guarded::new(4 * words.len(), behind);
    lent.words().copy_from_slice(words);
    lent
}

/// The same of words of 64 bits.
pub fn long_words(words: &[u64], behind: bool) -> Guarded {
    let mut lent = Guarded::new(8 * words.len(), behind);
    lent.long_words().copy_from_slice(words);
    lent
}

impl Drop for Guarded {
    fn drop(&mut self) {
        // SAFETY: the mapping of `new`, and nobody borrows from it any more.
        unsafe { munmap(self.base, self.length) };
    }
}
