//! Where the items of archived hash tables lie, in plain Rust: the hash, the strides of sixteen controls, and first fit.

use std::arch::x86_64::{
    _mm_cmpeq_epi8, _mm_loadu_si128, _mm_movemask_epi8, _mm_set1_epi8,
};
use std::hash::{Hash, Hasher};

/// The number of controls of a stride.
const STRIDE: usize = 16;
pub const EMPTY: u8 = 0xff;

/// The hasher of archived tables.
#[derive(Clone, Copy, Default)]
pub struct FxHasher64 {
    state: u64,
}

impl FxHasher64 {
    fn add(&mut self, word: u64) {
        self.state = (self.state.rotate_left(5) ^ word).wrapping_mul(0x517c_c1b7_2722_0a95);
    }
}

impl Hasher for FxHasher64 {
    fn write(&mut self, bytes: &[u8]) {
        let words = bytes.chunks_exact(8);
        let rest = words.remainder();
        for word in words {
            self.add(u64::from_le_bytes(word.try_into().unwrap()));
        }
        if !rest.is_empty() {
            let mut last = [0; 8];
            last[..rest.len()].copy_from_slice(rest);
            self.add(u64::from_le_bytes(last));
        }
    }

    fn finish(&self) -> u64 {
        self.state
    }
}

pub fn hash_of(key: &str) -> u64 {
    let mut hasher = FxHasher64::default();
    key.hash(&mut hasher);
    hasher.finish()
}

pub fn tag_of(hash: u64) -> u8 {
    (hash >> 57) as u8
}

// ---- strides

/// The positions at which the strides of a hash begin.
pub struct Strides {
    position: usize,
    step: usize,
    mask: usize,
    end: usize,
    left: usize,
}

impl Strides {
    pub fn new(hash: u64, capacity: usize) -> Self {
        let end = capacity.next_multiple_of(STRIDE);
        let ring = end.next_power_of_two();
        Strides {
            position: (hash % capacity as u64) as usize,
            step: 0,
            mask: ring - 1,
            end,
            left: ring / STRIDE,
        }
    }
}

impl Iterator for Strides {
    type Item = usize;

    fn next(&mut self) -> Option<usize> {
        while self.left > 0 {
            let position = self.position;
            self.left -= 1;
            self.step += STRIDE;
            self.position = (position + self.step) & self.mask;
            if position < self.end {
                return Some(position);
            }
        }
        None
    }
}

/// Returns a bit for each of the sixteen controls from a position on that is the tag, and for each that is empty.
pub fn scan(controls: &[u8], position: usize, tag: u8) -> (u32, u32) {
    let shown: &[u8; STRIDE] = controls[position..position + STRIDE].try_into().unwrap();
    // SAFETY: sixteen bytes can be read, and every x86-64 processor has these instructions.
    unsafe {
        let shown = _mm_loadu_si128(shown.as_ptr().cast());
        let equal = _mm_cmpeq_epi8(shown, _mm_set1_epi8(tag as i8));
        (
            _mm_movemask_epi8(equal) as u32,
            _mm_movemask_epi8(shown) as u32,
        )
    }
}

pub fn wrapped(control: usize, capacity: usize) -> usize {
    match control < capacity {
        true => control,
        false => control - capacity,
    }
}

// ---- first fit

pub fn control_count(capacity: usize) -> usize {
    capacity.next_multiple_of(STRIDE) + STRIDE - 1
}

/// Takes the place where an item of a hash first fits, and returns it.
pub fn take_place(controls: &mut [u8], capacity: usize, hash: u64) -> Option<usize> {
    for position in Strides::new(hash, capacity) {
        let (_, empty) = scan(controls, position, 0);
        let control = position + empty.trailing_zeros() as usize;
        if empty == 0 || control >= 2 * capacity {
            continue;
        }
        let place = wrapped(control, capacity);
        controls[place] = tag_of(hash);
        if place + capacity < controls.len() {
            controls[place + capacity] = tag_of(hash);
        }
        return Some(place);
    }
    None
}

/// Returns the number of places of a table.
pub fn capacity(len: usize) -> usize {
    match len {
        0 => 0,
        _ => (len * 8 / 7).max(len + 1),
    }
}
