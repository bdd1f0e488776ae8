//! Bytes that are lent to the library, with guard bytes on both sides that no call may touch.

use crate::pair::hex;

const GUARD: u8 = 0xA5;
const GUARD_BYTES: usize = 32;

/// Where lent bytes stand, as C takes them.
#[derive(Clone, Copy)]
pub struct Slice {
    pub pointer: *mut u8,
    pub length: usize,
}

pub struct Lent {
    /// 64-bit words, so that a struct that starts right after the guard is aligned as C wants it
    arena: Vec<u64>,
    start: usize,
    length: usize,
    null: bool,
}

impl Lent {
    /// Lends bytes that start `skew` bytes off the alignment of a struct. No bytes are lent as a null pointer if `null` says so.
    pub fn new(bytes: &[u8], skew: usize, null: bool) -> Lent {
        let start = GUARD_BYTES + skew;
        let words = (start + bytes.len() + GUARD_BYTES).div_ceil(8);
        let mut lent = Lent {
            arena: vec![u64::from_ne_bytes([GUARD; 8]); words],
            start,
            length: bytes.len(),
            null: null && bytes.is_empty(),
        };
        lent.all_mut()[start..start + bytes.len()].copy_from_slice(bytes);
        lent
    }

    fn all(&self) -> &[u8] {
        // The words are initialised, and a byte has no alignment and no invalid value.
        unsafe { std::slice::from_raw_parts(self.arena.as_ptr().cast(), self.arena.len() * 8) }
    }

    fn all_mut(&mut self) -> &mut [u8] {
        // As above; the borrow is exclusive.
        unsafe { std::slice::from_raw_parts_mut(self.arena.as_mut_ptr().cast(), self.arena.len() * 8) }
    }

    pub fn slice(&mut self) -> Slice {
        let (start, length) = (self.start, self.length);
        let pointer = if self.null { std::ptr::null_mut() } else { self.all_mut()[start..].as_mut_ptr() };
        Slice { pointer, length }
    }

    /// Where a struct stands.
    pub fn pointer(&mut self) -> *mut u8 {
        self.slice().pointer
    }

    pub fn bytes(&self) -> &[u8] {
        &self.all()[self.start..self.start + self.length]
    }

    /// What is wrong with these bytes after a call, if they are to be `expected`.
    pub fn problem(&self, name: &str, expected: &[u8]) -> Option<String> {
        let (before, rest) = self.all().split_at(self.start);
        let guards_stand = before.iter().chain(&rest[self.length..]).all(|byte| *byte == GUARD);
        if !guards_stand {
            return Some(format!("bytes around {name} were written"));
        }
        let got = self.bytes();
        if got == expected {
            return None;
        }
        let at = got.iter().zip(expected).position(|(got, expected)| got != expected)?;
        let end = (at + 16).min(self.length);
        Some(format!(
            "{name} differs from byte {at} of {}: library {}, second opinion {}",
            self.length,
            hex(&got[at..end]),
            hex(&expected[at..end])
        ))
    }
}
