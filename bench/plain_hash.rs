//! Archived hash maps of texts to numbers in plain Rust, over the same layout: first-fit tables that are written,
//! walked and searched by sixteen controls at once.

use crate::forms::{Archive, Refused, align, offset, target, text, word};
use crate::plain_probing::{
    EMPTY, Strides, capacity, control_count, hash_of, scan, tag_of, take_place, wrapped,
};

/// The own bytes of an entry: the text, and after it the number.
const ITEM: usize = 16;
const VALUE: usize = 8;
const ALIGN: usize = 8;
/// The number of a map's own bytes, which end its archive.
const MAP: usize = 12;
/// The offset that denotes no target.
const NOTHING: i32 = 1;

// ---- writing

/// Writes the table of these entries after their data, and returns the position of its controls, if it has places.
pub fn write_table<'a>(
    len: usize,
    entries: impl Iterator<Item = (&'a String, &'a u64)>,
) -> Result<(Vec<u8>, Option<usize>), Refused> {
    let mut out = Vec::new();
    let capacity = capacity(len);
    if len == 0 {
        return Ok((out, None));
    }
    let mut controls = vec![EMPTY; control_count(capacity)];
    let mut places = vec![None; capacity];
    for (key, value) in entries {
        let place = take_place(&mut controls, capacity, hash_of(key));
        places[place.ok_or(Refused::OutOfRange)?] = Some((key, value, 0));
    }
    for (key, _, start) in places.iter_mut().flatten() {
        *start = key.serialize::<false>(&mut out)?;
    }
    align(&mut out, ALIGN);
    let end = out.len() + capacity * ITEM;
    out.resize(end, 0);
    for (place, item) in places.iter().enumerate() {
        if let Some((key, value, start)) = *item {
            let pos = end - (place + 1) * ITEM;
            key.resolve(start, pos, &mut out[pos..pos + VALUE])?;
            out[pos + VALUE..pos + ITEM].copy_from_slice(&value.to_le_bytes());
        }
    }
    out.extend_from_slice(&controls);
    Ok((out, Some(end)))
}

/// Writes a map of these entries, whose own bytes end the archive.
pub fn write<'a>(
    len: usize,
    entries: impl Iterator<Item = (&'a String, &'a u64)>,
) -> Result<Vec<u8>, Refused> {
    let (mut out, controls) = write_table(len, entries)?;
    align(&mut out, 4);
    let pos = out.len();
    let link = controls.map_or(Ok(NOTHING), |to| offset(pos, to))?;
    out.extend_from_slice(&link.to_le_bytes());
    out.extend_from_slice(&(len as u32).to_le_bytes());
    out.extend_from_slice(&(capacity(len) as u32).to_le_bytes());
    Ok(out)
}

// ---- reading

/// Returns the position of the controls of the map that ends the bytes, and the number of its places.
fn table(bytes: &[u8]) -> Option<(usize, usize)> {
    let pos = bytes.len() - MAP;
    match word(bytes, pos + 4) {
        0 => None,
        _ => Some((target(bytes, pos, pos)?, word(bytes, pos + 8) as usize)),
    }
}

fn value(bytes: &[u8], item: usize) -> u64 {
    u64::from_le_bytes(bytes[item + VALUE..item + ITEM].try_into().unwrap())
}

/// Returns the value of a key.
pub fn get(bytes: &[u8], query: &str) -> Option<u64> {
    let (end, capacity) = table(bytes)?;
    let hash = hash_of(query);
    let controls = &bytes[end..end + control_count(capacity)];
    for position in Strides::new(hash, capacity) {
        let (mut equal, empty) = scan(controls, position, tag_of(hash));
        while equal != 0 {
            let place = wrapped(position + equal.trailing_zeros() as usize, capacity);
            let item = end - (place + 1) * ITEM;
            if text(bytes, item) == query.as_bytes() {
                return Some(value(bytes, item));
            }
            equal &= equal - 1;
        }
        if empty != 0 {
            return None;
        }
    }
    None
}

/// Returns the sum of what is found for queries that lie one after the other, and end at these positions.
#[inline(never)]
pub fn sum_found(bytes: &[u8], queries: &str, ends: &[usize]) -> u64 {
    let mut start = 0;
    let mut sum = 0u64;
    for &end in ends {
        sum = sum.wrapping_add(get(bytes, &queries[start..end]).unwrap_or(0));
        start = end;
    }
    sum
}

/// Returns the sum of all values and of the lengths of their keys, by ascending place.
#[inline(never)]
pub fn sum_walked(bytes: &[u8]) -> u64 {
    let Some((end, capacity)) = table(bytes) else {
        return 0;
    };
    let controls = &bytes[end..end + capacity];
    let mut sum = 0u64;
    for (place, &control) in controls.iter().enumerate() {
        if control < 128 {
            let item = end - (place + 1) * ITEM;
            sum = sum.wrapping_add(value(bytes, item) + text(bytes, item).len() as u64);
        }
    }
    sum
}
