//! Memory that is lent to the library, so made that a byte written outside it is seen.

use std::ptr;

/// How lent memory is laid out.
#[derive(Clone, Copy, PartialEq, Eq)]
pub enum Layout {
    /// Between guard bytes, at any alignment.
    Guarded,
    /// A heap block of exactly its length, so that a memory checker sees each byte outside it.
    Exact,
}

/// The bytes of one lent part, with the guard bytes around them.
pub struct Lent {
    block: Vec<u8>,
    guard: usize,
    salt: u8,
    null: bool,
}

/// The byte that a guard or a written part has at a place before a call.
fn filler(salt: u8, place: usize) -> u8 {
    (place as u8).wrapping_mul(167).wrapping_add(salt)
}

/// A written part as it is before a call: bytes that differ from call to call.
pub fn filled(salt: u8, length: usize) -> Vec<u8> {
    (0..length).map(|place| filler(salt, place)).collect()
}

impl Lent {
    /// Lends a copy of some bytes. The salt chooses the guard bytes, the alignment, and whether an
    /// empty part goes out as a null pointer.
    pub fn copy_of(bytes: &[u8], layout: Layout, salt: u8) -> Lent {
        let guard = match layout {
            Layout::Guarded => 64 + usize::from(salt % 16),
            Layout::Exact => 0,
        };
        let mut block = Vec::with_capacity(guard + bytes.len() + guard);
        block.extend((0..guard).map(|place| filler(salt, place)));
        block.extend_from_slice(bytes);
        block.extend((0..guard).map(|place| filler(salt, place)));
        Lent {
            block,
            guard,
            salt,
            null: bytes.is_empty() && salt & 16 != 0,
        }
    }

    /// A part that the call does not take.
    pub fn none() -> Lent {
        Lent {
            block: Vec::new(),
            guard: 0,
            salt: 0,
            null: true,
        }
    }

    pub fn len(&self) -> usize {
        self.block.len() - 2 * self.guard
    }

    pub fn pointer(&self) -> *const u8 {
        match self.null {
            true => ptr::null(),
            false => self.block[self.guard..].as_ptr(),
        }
    }

    pub fn written_pointer(&mut self) -> *mut u8 {
        match self.null {
            true => ptr::null_mut(),
            false => self.block[self.guard..].as_mut_ptr(),
        }
    }

    pub fn bytes(&self) -> &[u8] {
        &self.block[self.guard..self.block.len() - self.guard]
    }

    /// Where a guard byte was changed, as a distance from the part's first byte.
    pub fn broken_guard(&self) -> Option<isize> {
        let (before, rest) = self.block.split_at(self.guard);
        let (_, after) = rest.split_at(self.len());
        let changed =
            |guard: &[u8]| (0..guard.len()).find(|&place| guard[place] != filler(self.salt, place));
        match (changed(before), changed(after)) {
            (Some(place), _) => Some(place as isize - self.guard as isize),
            (None, Some(place)) => Some((self.len() + place) as isize),
            (None, None) => None,
        }
    }
}
