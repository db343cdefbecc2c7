//! Kept maps of archived documents in plain Rust: entries in their order beside a table of their numbers, written, checked
//! and searched.

use crate::plain_archive::{
    ALIGN, ArchiveWriter, Check, NODE, TEXT, own_bytes, part, text_bytes, view_text, word_in,
};
use crate::plain_probing::{
    EMPTY, Strides, capacity, control_count, hash_of, scan, tag_of, take_place, wrapped,
};
use crate::plain_table::key_at;
use crate::{Pair, Refusal};

/// The own bytes of an entry: the key, and after it the node.
const ENTRY: usize = TEXT + NODE;
const NUMBER: usize = 4;

/// Where the controls of a table of numbers begin, the number of its places, and where the entries begin. The number of a
/// place ends where that of the place before it begins, and that of the first one at the controls.
#[derive(Clone, Copy)]
pub struct Index {
    pub controls: usize,
    pub places: usize,
    pub entries: usize,
}

impl Index {
    fn number(&self, bytes: &[u8], place: usize) -> usize {
        word_in(bytes, self.controls - (place + 1) * NUMBER) as usize
    }

    fn entry(&self, number: usize) -> usize {
        self.entries + number * ENTRY
    }
}

impl<'a> ArchiveWriter<'a> {
    /// Writes the table of a map that is not empty, then its entries after what they lead to, and returns the positions
    /// of the controls and of the entries.
    pub fn put_index(&mut self, pairs: &'a [Pair]) -> Result<(u32, u32), Refusal> {
        let places = capacity(pairs.len());
        let start = self.bytes.len().next_multiple_of(NUMBER);
        let end = start + places * NUMBER;
        let mut controls = vec![EMPTY; control_count(places)];
        self.bytes.resize(end, 0);
        for (number, (key, _)) in pairs.iter().enumerate() {
            let place = take_place(&mut controls, places, hash_of(key));
            let at = end - (place.ok_or("the table has no place")? + 1) * NUMBER;
            let number = u32::try_from(number)?;
            self.bytes[at..at + NUMBER].copy_from_slice(&number.to_le_bytes());
        }
        self.bytes.extend_from_slice(&controls);
        let mut targets = Vec::with_capacity(pairs.len());
        for (key, node) in pairs {
            targets.push((self.put_text(key)?, self.put_data(node)?));
        }
        let entries = self.align()?;
        for ((key, node), (of_key, of_node)) in pairs.iter().zip(targets) {
            let own = text_bytes(key, of_key, self.bytes.len())?;
            self.bytes.extend_from_slice(&own);
            let own = own_bytes(node, of_node, self.bytes.len())?;
            self.bytes.extend_from_slice(&own);
        }
        Ok((u32::try_from(end)?, entries))
    }
}

impl Check<'_> {
    /// Checks a map of `count` entries that ends at `end` at most, and whose values lie inside `depth` containers.
    pub fn index(&mut self, index: Index, count: usize, end: usize, depth: usize) -> Option<()> {
        let Index {
            controls, places, ..
        } = index;
        let start = controls.checked_sub(places.checked_mul(NUMBER)?)?;
        let after = controls.checked_add(control_count(places))?;
        if count >= places
            || start < self.claimed
            || end < after
            || !start.is_multiple_of(NUMBER)
        {
            return None;
        }
        let (low, high) = self.bytes[controls..after].split_at(places);
        let again = high.len().min(places);
        if high[..again] != low[..again] || high[again..].iter().any(|control| *control < 128) {
            return None;
        }
        let full = || (0..places).filter(|place| low[*place] < 128);
        if full().count() != count || full().any(|place| index.number(self.bytes, place) >= count) {
            return None;
        }
        self.claimed = after;
        let after = index.entry(0).checked_add(count.checked_mul(ENTRY)?)?;
        if index.entries < self.claimed || end < after || !index.entries.is_multiple_of(ALIGN) {
            return None;
        }
        for at in (index.entries..after).step_by(ENTRY) {
            let own = &self.bytes[at..at + ENTRY];
            self.text(view_text(part(own, 0), at)?, index.entries)?;
            self.node(part(own, TEXT), at + TEXT, index.entries, depth)?;
        }
        self.claimed = after;
        // Where each key is found, the entries have as many places as the table, each under its key's tag.
        for number in 0..count {
            let key = key_at(self.bytes, index.entry(number))?;
            let hash = hash_of(str::from_utf8(key).ok()?);
            let is_own = |other| other == number || key_at(self.bytes, index.entry(other)) == Some(key);
            if find_number(self.bytes, index, hash, is_own) != Some(number) {
                return None;
            }
        }
        Some(())
    }
}

/// Returns the number of the first entry under a hash that is accepted.
fn find_number(
    bytes: &[u8],
    index: Index,
    hash: u64,
    accepts: impl Fn(usize) -> bool,
) -> Option<usize> {
    let controls = &bytes[index.controls..index.controls + control_count(index.places)];
    for position in Strides::new(hash, index.places) {
        let (mut equal, empty) = scan(controls, position, tag_of(hash));
        while equal != 0 {
            let control = position + equal.trailing_zeros() as usize;
            let number = index.number(bytes, wrapped(control, index.places));
            if accepts(number) {
                return Some(number);
            }
            equal &= equal - 1;
        }
        if empty != 0 {
            return None;
        }
    }
    None
}

/// Returns the position of the value of a key.
pub fn find_in_index(bytes: &[u8], index: Option<Index>, query: &str) -> Option<usize> {
    let index = index?;
    let has_key = |number| key_at(bytes, index.entry(number)) == Some(query.as_bytes());
    let number = find_number(bytes, index, hash_of(query), has_key)?;
    Some(index.entry(number) + TEXT)
}

/// Returns the positions of the entries.
pub fn entries(index: Option<Index>, count: usize) -> impl Iterator<Item = usize> {
    index.into_iter().flat_map(move |index| (0..count).map(move |number| index.entry(number)))
}
