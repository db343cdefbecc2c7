//! Hashed maps of archived documents in plain Rust: hash tables in first fit, written, checked and searched.

use crate::plain_archive::{
    ALIGN, ArchiveWriter, Check, NODE, TEXT, Target, own_bytes, part, text_bytes, view_text,
};
use crate::plain_probing::{
    EMPTY, Strides, capacity, control_count, hash_of, scan, tag_of, take_place, wrapped,
};
use crate::{Pairs, Refusal};

/// The own bytes of a pair: the key, and after it the node.
const PAIR: usize = TEXT + NODE;

/// Where the controls of a table begin, and the number of its places. The pair of a place ends where that of the place
/// before it begins, and that of the first one at the controls.
#[derive(Clone, Copy)]
pub struct Table {
    pub controls: usize,
    pub places: usize,
}

impl Table {
    /// Returns the position of the pair of a place.
    fn pair(&self, place: usize) -> usize {
        self.controls - (place + 1) * PAIR
    }
}

impl<'a> ArchiveWriter<'a> {
    /// Writes the table of a map that is not empty, after what its pairs lead to, and returns the position of its
    /// controls.
    pub fn put_table(&mut self, pairs: &'a Pairs) -> Result<u32, Refusal> {
        let places = capacity(pairs.len());
        let mut controls = vec![EMPTY; control_count(places)];
        let mut there = vec![None; places];
        for (key, node) in pairs {
            let place = take_place(&mut controls, places, hash_of(key));
            there[place.ok_or("the table has no place")?] = Some((key, node, 0, Target::default()));
        }
        for (key, node, of_key, of_node) in there.iter_mut().flatten() {
            *of_key = self.put_text(key)?;
            *of_node = self.put_data(node)?;
        }
        let start = self.align()? as usize;
        let end = start + places * PAIR;
        self.bytes.resize(end, 0);
        for (place, pair) in there.iter().enumerate() {
            if let Some((key, node, of_key, of_node)) = pair {
                let at = end - (place + 1) * PAIR;
                self.bytes[at..at + TEXT].copy_from_slice(&text_bytes(key, *of_key, at)?);
                let own = own_bytes(node, *of_node, at + TEXT)?;
                self.bytes[at + TEXT..at + PAIR].copy_from_slice(&own);
            }
        }
        self.bytes.extend_from_slice(&controls);
        Ok(u32::try_from(end)?)
    }
}

impl Check<'_> {
    /// Checks a table of `count` pairs that ends at `end` at most, and whose values lie inside `depth` containers.
    pub fn table(&mut self, table: Table, count: usize, end: usize, depth: usize) -> Option<()> {
        let Table { controls, places } = table;
        let start = controls.checked_sub(places.checked_mul(PAIR)?)?;
        let after = controls.checked_add(control_count(places))?;
        if count >= places
            || start < self.claimed
            || end < after
            || !start.is_multiple_of(ALIGN)
        {
            return None;
        }
        let shown = &self.bytes[controls..after];
        let (low, high) = shown.split_at(places);
        let again = high.len().min(places);
        if high[..again] != low[..again] || high[again..].iter().any(|control| *control < 128) {
            return None;
        }
        let full = || (0..places).filter(|place| low[*place] < 128);
        if full().count() != count {
            return None;
        }
        for place in full() {
            let at = table.pair(place);
            let own = &self.bytes[at..at + PAIR];
            self.text(view_text(part(own, 0), at)?, start)?;
            self.node(part(own, TEXT), at + TEXT, start, depth)?;
        }
        self.claimed = after;
        for place in full() {
            let key = key_at(self.bytes, table.pair(place))?;
            let hash = hash_of(str::from_utf8(key).ok()?);
            let is_own = |other| other == place || key_at(self.bytes, table.pair(other)) == Some(key);
            if low[place] != tag_of(hash) || find_place(self.bytes, table, hash, is_own) != Some(place) {
                return None;
            }
        }
        Some(())
    }
}

/// Returns the key of the pair at a position.
pub fn key_at(bytes: &[u8], at: usize) -> Option<&[u8]> {
    bytes.get(view_text(part(&bytes[at..], 0), at)?)
}

/// Returns the first place with a hash that is accepted.
fn find_place(
    bytes: &[u8],
    table: Table,
    hash: u64,
    accepts: impl Fn(usize) -> bool,
) -> Option<usize> {
    let Table { controls, places } = table;
    let controls = &bytes[controls..controls + control_count(places)];
    for position in Strides::new(hash, places) {
        let (mut equal, empty) = scan(controls, position, tag_of(hash));
        while equal != 0 {
            let control = position + equal.trailing_zeros() as usize;
            let place = wrapped(control, places);
            if accepts(place) {
                return Some(place);
            }
            equal &= equal - 1;
        }
        if empty != 0 {
            return None;
        }
    }
    None
}

/// Returns the position of the value of a key.
pub fn find_in_table(bytes: &[u8], table: Option<Table>, query: &str) -> Option<usize> {
    let table = table?;
    let has_key = |place| key_at(bytes, table.pair(place)) == Some(query.as_bytes());
    let place = find_place(bytes, table, hash_of(query), has_key)?;
    Some(table.pair(place) + TEXT)
}

/// Returns the positions of the pairs, by ascending place.
pub fn positions(bytes: &[u8], table: Option<Table>) -> impl Iterator<Item = usize> {
    table.into_iter().flat_map(move |table| {
        (0..table.places)
            .filter(move |place| bytes[table.controls + place] < 128)
            .map(move |place| table.pair(place))
    })
}
