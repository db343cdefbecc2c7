//! Archived maps of texts to numbers in plain Rust, over the same layout: packed search trees that are written, walked
//! and searched.

use crate::forms::{Archive, Refused, align, offset, target, text, word};
use std::cmp::Ordering;
use std::collections::BTreeMap;

/// The greatest number of entries of a node.
const MOST: usize = 5;
const KEYS: usize = 4;
const KEY: usize = 8;
const VALUES: usize = 48;
const VALUE: usize = 8;
const LINKS: usize = VALUES + MOST * VALUE;
const LEAF: usize = 96;
const INNER: usize = LINKS + 4 * (MOST + 1);
const ALIGN: usize = 8;
/// The offset that denotes no target.
const NOTHING: i32 = 1;

type Entry<'a> = (&'a String, &'a u64);

// ---- writing

/// Writes the data of a node's entries, and the node after it. A leaf has no children.
fn write_node(
    out: &mut Vec<u8>,
    own: &[Entry<'_>],
    children: &[Option<usize>],
) -> Result<usize, Refused> {
    let mut starts = [0; MOST];
    for (start, (key, _)) in starts.iter_mut().zip(own) {
        *start = key.serialize::<false>(out)?;
    }
    align(out, ALIGN);
    let pos = out.len();
    let size = if children.is_empty() { LEAF } else { INNER };
    out.resize(pos + size, 0);
    let node = &mut out[pos..];
    node[0] = u8::from(!children.is_empty());
    for (i, (key, value)) in own.iter().enumerate() {
        let at = KEYS + i * KEY;
        key.resolve(starts[i], pos + at, &mut node[at..at + KEY])?;
        let at = VALUES + i * VALUE;
        node[at..at + VALUE].copy_from_slice(&value.to_le_bytes());
    }
    if children.is_empty() {
        node[LINKS..LINKS + 4].copy_from_slice(&(own.len() as u32).to_le_bytes());
    }
    for (i, child) in children.iter().enumerate() {
        let at = LINKS + 4 * i;
        let link = match child {
            Some(to) => offset(pos + at, *to)?,
            None => NOTHING,
        };
        node[at..at + 4].copy_from_slice(&link.to_le_bytes());
    }
    Ok(pos)
}

/// Writes the tree below a pointer: `above` levels above the last one, which has `last` entries and `wide` places for
/// nodes.
fn write_tree<'a>(
    out: &mut Vec<u8>,
    entries: &mut impl Iterator<Item = Entry<'a>>,
    above: usize,
    wide: usize,
    last: usize,
) -> Result<Option<usize>, Refused> {
    let leaf = match above {
        0 => last,
        1 if last == 0 => MOST,
        _ => 0,
    };
    if above == 0 && last == 0 {
        return Ok(None);
    }
    let empty = (const { &String::new() }, &0);
    let mut own = [empty; MOST];
    if leaf > 0 {
        for (slot, entry) in own.iter_mut().zip(entries.take(leaf)) {
            *slot = entry;
        }
        return write_node(out, &own[..leaf], &[]).map(Some);
    }
    let below = wide / (MOST + 1);
    let mut left = last;
    let mut children = [None; MOST + 1];
    for i in 0..MOST {
        let share = left.min(MOST * below);
        children[i] = write_tree(out, entries, above - 1, below, share)?;
        own[i] = entries.next().ok_or(Refused::OutOfRange)?;
        left -= share;
    }
    children[MOST] = write_tree(out, entries, above - 1, below, left)?;
    write_node(out, &own, &children).map(Some)
}

/// Writes a map, whose own bytes end the archive.
pub fn write(map: &BTreeMap<String, u64>) -> Result<Vec<u8>, Refused> {
    let mut out = Vec::new();
    let (mut above, mut wide) = (0, 1);
    while wide <= map.len() / (MOST + 1) {
        wide *= MOST + 1;
        above += 1;
    }
    let root = match map.len() {
        0 => None,
        len => write_tree(&mut out, &mut map.iter(), above, wide, len + 1 - wide)?,
    };
    align(&mut out, 4);
    let pos = out.len();
    let link = root.map_or(Ok(NOTHING), |to| offset(pos, to))?;
    out.extend_from_slice(&link.to_le_bytes());
    out.extend_from_slice(&(map.len() as u32).to_le_bytes());
    Ok(out)
}

// ---- reading

/// Returns the position of the root of the map that ends the bytes.
fn root(bytes: &[u8]) -> Option<usize> {
    let pos = bytes.len() - 8;
    match word(bytes, pos + 4) {
        0 => None,
        _ => target(bytes, pos, pos),
    }
}

fn is_leaf(bytes: &[u8], node: usize) -> bool {
    bytes[node] == 0
}

fn count(bytes: &[u8], node: usize) -> usize {
    match is_leaf(bytes, node) {
        true => word(bytes, node + LINKS) as usize,
        false => MOST,
    }
}

fn child(bytes: &[u8], node: usize, i: usize) -> Option<usize> {
    let at = node + LINKS + 4 * i;
    match is_leaf(bytes, node) || word(bytes, at) as i32 == NOTHING {
        true => None,
        false => target(bytes, at, at),
    }
}

fn value(bytes: &[u8], node: usize, i: usize) -> u64 {
    let at = node + VALUES + i * VALUE;
    u64::from_le_bytes(bytes[at..at + VALUE].try_into().unwrap())
}

/// Returns the value of a key.
pub fn get(bytes: &[u8], query: &[u8]) -> Option<u64> {
    let mut at = root(bytes);
    'nodes: while let Some(node) = at {
        let count = count(bytes, node);
        for i in 0..count {
            match query.cmp(text(bytes, node + KEYS + i * KEY)) {
                Ordering::Less => {
                    at = child(bytes, node, i);
                    continue 'nodes;
                }
                Ordering::Equal => return Some(value(bytes, node, i)),
                Ordering::Greater => {}
            }
        }
        at = child(bytes, node, count);
    }
    None
}

/// Returns the sum of what is found for queries that lie one after the other, and end at these positions.
#[inline(never)]
pub fn sum_found(bytes: &[u8], queries: &[u8], ends: &[usize]) -> u64 {
    let mut start = 0;
    let mut sum = 0u64;
    for &end in ends {
        sum = sum.wrapping_add(get(bytes, &queries[start..end]).unwrap_or(0));
        start = end;
    }
    sum
}

/// The nodes from the root down to one, each with the index of its next entry.
struct Walk<'a> {
    bytes: &'a [u8],
    stack: [(usize, usize); 32],
    depth: usize,
}

impl<'a> Walk<'a> {
    fn new(bytes: &'a [u8]) -> Self {
        Walk {
            bytes,
            stack: [(0, 0); 32],
            depth: 0,
        }
    }

    fn push(&mut self, node: usize, next: usize) {
        self.stack[self.depth] = (node, next);
        self.depth += 1;
    }

    /// Returns a walk over all entries.
    fn all(bytes: &'a [u8]) -> Self {
        let mut walk = Walk::new(bytes);
        walk.descend(root(bytes));
        walk
    }

    /// Returns a walk over the entries whose keys are not below a text.
    fn from(bytes: &'a [u8], low: &[u8]) -> Self {
        let mut walk = Walk::new(bytes);
        let mut at = root(bytes);
        while let Some(node) = at {
            let count = count(bytes, node);
            let is_below = |i| text(bytes, node + KEYS + i * KEY) < low;
            let next = (0..count).find(|&i| !is_below(i)).unwrap_or(count);
            walk.push(node, next);
            at = child(bytes, node, next);
        }
        walk
    }

    /// Descends to the first entry below a node.
    fn descend(&mut self, mut at: Option<usize>) {
        while let Some(node) = at {
            self.push(node, 0);
            at = child(self.bytes, node, 0);
        }
    }
}

impl Iterator for Walk<'_> {
    /// A node, and the index of an entry in it.
    type Item = (usize, usize);

    fn next(&mut self) -> Option<(usize, usize)> {
        while let Some((node, next)) = self.stack[..self.depth].last_mut() {
            let (node, i) = (*node, *next);
            if i == count(self.bytes, node) {
                self.depth -= 1;
                continue;
            }
            *next += 1;
            self.descend(child(self.bytes, node, i + 1));
            return Some((node, i));
        }
        None
    }
}

/// Returns the sum of the number of an entry and the number of bytes of its key.
fn weight(bytes: &[u8], (node, i): (usize, usize)) -> u64 {
    value(bytes, node, i) + text(bytes, node + KEYS + i * KEY).len() as u64
}

/// Returns the sum of all values, in order, with the lengths of their keys.
#[inline(never)]
pub fn sum_walked(bytes: &[u8]) -> u64 {
    let add = |sum: u64, entry| sum.wrapping_add(weight(bytes, entry));
    Walk::all(bytes).fold(0, add)
}

/// Returns the same sum over the entries of ranges: each from a text on, and below the one after it. The texts lie one
/// after the other and end at these positions.
#[inline(never)]
pub fn sum_ranges(bytes: &[u8], bounds: &[u8], ends: &[usize]) -> u64 {
    let mut start = 0;
    let mut sum = 0u64;
    for pair in ends.chunks_exact(2) {
        let (low, high) = (&bounds[start..pair[0]], &bounds[pair[0]..pair[1]]);
        let end = Walk::from(bytes, high).next();
        for entry in Walk::from(bytes, low).take_while(|&entry| Some(entry) != end) {
            sum = sum.wrapping_add(weight(bytes, entry));
        }
        start = pair[1];
    }
    sum
}
