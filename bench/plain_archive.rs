//! Archives of documents in plain Rust: written, checked, read and edited in place.

use crate::plain_index::{Index, find_in_index};
use crate::plain_probing::capacity;
use crate::plain_table::{Table, find_in_table};
use crate::plain_tree::find_key;
use crate::{Leaf, MOST, Node, Refusal, Step};
use std::collections::HashMap;
use std::collections::hash_map::Entry;
use std::ops::Range;
use std::slice;

pub const NODE: usize = 24;
pub const TEXT: usize = 8;
pub const ALIGN: usize = 8;
/// The offset that denotes no target.
pub const NOTHING: [u8; 4] = 1i32.to_le_bytes();
const LONGEST_INLINE: usize = 8;
const LONGEST_TEXT: usize = (1 << 30) - 1;

// ---- archives that are written

/// The position of what a node leads to, and for a kept map also that of its entries.
#[derive(Clone, Copy, Default)]
pub struct Target {
    to: u32,
    entries: u32,
}

impl From<u32> for Target {
    fn from(to: u32) -> Target {
        Target { to, entries: 0 }
    }
}

pub struct ArchiveWriter<'a> {
    pub bytes: Vec<u8>,
    /// For each node that is still to be written, what it leads to.
    targets: Vec<Target>,
    /// The position of each shared text.
    shared: HashMap<&'a str, u32>,
}

impl<'a> ArchiveWriter<'a> {
    fn position(&self) -> Result<u32, Refusal> {
        Ok(u32::try_from(self.bytes.len())?)
    }

    /// Writes zeros up to the next place for nodes, and returns its position.
    pub fn align(&mut self) -> Result<u32, Refusal> {
        self.bytes
            .resize(self.bytes.len().next_multiple_of(ALIGN), 0);
        self.position()
    }

    /// Writes a text that is out of line, and returns its position.
    pub fn put_text(&mut self, text: &str) -> Result<u32, Refusal> {
        if text.len() > LONGEST_TEXT {
            return Err("a text is too long".into());
        }
        if text.len() <= LONGEST_INLINE {
            return Ok(0);
        }
        let start = self.position()?;
        self.bytes.extend_from_slice(text.as_bytes());
        Ok(start)
    }

    /// Writes what a node leads to, and returns its position.
    #[inline(always)]
    pub fn put_data(&mut self, node: &'a Node) -> Result<Target, Refusal> {
        Ok(match node {
            Node::Leaf(Leaf::Text(text)) => self.put_text(text)?.into(),
            Node::Shared(text) => self.put_shared(text)?.into(),
            Node::Maybe(Some(inside)) => self.put_nodes(slice::from_ref(inside))?.into(),
            Node::List(elements) => self.put_nodes(elements)?.into(),
            Node::Ordered(pairs) if !pairs.is_empty() => self.put_tree(pairs)?.into(),
            Node::Hashed(pairs) if !pairs.is_empty() => self.put_table(pairs)?.into(),
            Node::Kept(pairs) if !pairs.is_empty() => {
                let (to, entries) = self.put_index(pairs)?;
                Target { to, entries }
            }
            _ => Target::default(),
        })
    }

    /// Writes a shared text at its first use, with a zero byte after an empty one, and returns its position.
    fn put_shared(&mut self, text: &'a str) -> Result<u32, Refusal> {
        let start = self.position();
        match self.shared.entry(text) {
            Entry::Occupied(there) => Ok(*there.get()),
            Entry::Vacant(place) => {
                self.bytes.extend_from_slice(text.as_bytes());
                if text.is_empty() {
                    self.bytes.push(0);
                }
                Ok(*place.insert(start?))
            }
        }
    }

    /// Writes nodes side by side, after what they lead to, and returns their position.
    fn put_nodes(&mut self, nodes: &'a [Node]) -> Result<u32, Refusal> {
        let first = self.targets.len();
        for node in nodes {
            let target = self.put_data(node)?;
            self.targets.push(target);
        }
        let start = self.align()?;
        for (node, at) in nodes.iter().zip(first..) {
            let own = own_bytes(node, self.targets[at], self.bytes.len())?;
            self.bytes.extend_from_slice(&own);
        }
        self.targets.truncate(first);
        Ok(start)
    }
}

/// Returns the offset of a target from a position.
pub fn offset(target: u32, from: usize) -> Result<[u8; 4], Refusal> {
    let offset = i64::from(target) - from as i64;
    Ok(i32::try_from(offset)?.to_le_bytes())
}

/// Returns the own bytes of a text at a position.
#[inline(always)]
pub fn text_bytes(text: &str, target: u32, pos: usize) -> Result<[u8; TEXT], Refusal> {
    let mut own = [0xff; TEXT];
    if text.len() <= LONGEST_INLINE {
        own[..text.len()].copy_from_slice(text.as_bytes());
    } else {
        let len = text.len() as u32;
        let word = (len >> 6 << 8) | 0x80 | (len & 0x3f);
        own[..4].copy_from_slice(&word.to_le_bytes());
        own[4..].copy_from_slice(&offset(target, pos)?);
    }
    Ok(own)
}

/// Returns the own bytes of a node at a position.
#[inline(always)]
pub fn own_bytes(node: &Node, target: Target, pos: usize) -> Result<[u8; NODE], Refusal> {
    let Target {
        to: target,
        entries,
    } = target;
    let mut own = [0; NODE];
    match node {
        Node::Leaf(Leaf::Bool(value)) => own[1] = u8::from(*value),
        Node::Leaf(Leaf::Int(number)) => {
            own[0] = 1;
            own[8..16].copy_from_slice(&number.to_le_bytes());
        }
        Node::Leaf(Leaf::Text(text)) => {
            own[0] = 2;
            own[4..12].copy_from_slice(&text_bytes(text, target, pos + 4)?);
        }
        Node::Shared(text) => {
            own[0] = 3;
            own[4..8].copy_from_slice(&offset(target, pos + 4)?);
            own[8..12].copy_from_slice(&u32::try_from(text.len())?.to_le_bytes());
        }
        Node::Maybe(None) => own[0] = 4,
        Node::Maybe(Some(_)) => {
            own[0] = 4;
            own[4] = 1;
            own[8..12].copy_from_slice(&offset(target, pos + 8)?);
        }
        Node::List(elements) => {
            own[0] = 5;
            own[4..8].copy_from_slice(&offset(target, pos + 4)?);
            own[8..12].copy_from_slice(&u32::try_from(elements.len())?.to_le_bytes());
        }
        Node::Ordered(pairs) => {
            own[0] = 6;
            own[4..8].copy_from_slice(&match pairs.is_empty() {
                true => NOTHING,
                false => offset(target, pos + 4)?,
            });
            own[8..12].copy_from_slice(&u32::try_from(pairs.len())?.to_le_bytes());
        }
        Node::Hashed(pairs) => {
            own[0] = 7;
            own[4..8].copy_from_slice(&match pairs.is_empty() {
                true => NOTHING,
                false => offset(target, pos + 4)?,
            });
            own[8..12].copy_from_slice(&u32::try_from(pairs.len())?.to_le_bytes());
            own[12..16].copy_from_slice(&u32::try_from(capacity(pairs.len()))?.to_le_bytes());
        }
        Node::Kept(pairs) => {
            own[0] = 8;
            let (controls, first) = match pairs.is_empty() {
                true => (NOTHING, NOTHING),
                false => (offset(target, pos + 4)?, offset(entries, pos + 16)?),
            };
            own[4..8].copy_from_slice(&controls);
            own[8..12].copy_from_slice(&u32::try_from(pairs.len())?.to_le_bytes());
            own[12..16].copy_from_slice(&u32::try_from(capacity(pairs.len()))?.to_le_bytes());
            own[16..20].copy_from_slice(&first);
        }
    }
    Ok(own)
}

/// Returns the archive of a document.
pub fn archive_of(document: &Node) -> Result<Vec<u8>, Refusal> {
    let mut writer = ArchiveWriter {
        bytes: Vec::new(),
        targets: Vec::new(),
        shared: HashMap::new(),
    };
    writer.put_nodes(slice::from_ref(document))?;
    Ok(writer.bytes)
}

// ---- archives that are read

/// The content of a node, and where that is the position of what it leads to.
pub enum View {
    Bool(bool),
    Int(i64),
    Text(Range<usize>),
    Shared(Range<usize>),
    Maybe(Option<usize>),
    List { first: usize, count: usize },
    Ordered { root: Option<usize>, count: usize },
    Hashed { table: Option<Table>, count: usize },
    Kept { index: Option<Index>, count: usize },
}

/// Returns the bytes at a place in others.
pub fn part<const N: usize>(own: &[u8], at: usize) -> &[u8; N] {
    own[at..at + N].as_array().unwrap()
}

pub fn word_in(own: &[u8], at: usize) -> u32 {
    u32::from_le_bytes(*part(own, at))
}

/// Returns the position that an offset leads to from a position.
pub fn target(from: usize, offset: u32) -> Option<usize> {
    from.checked_add_signed(offset as i32 as isize)
}

/// Returns where a text at a position has its bytes. Those out of line are not checked.
pub fn view_text(own: &[u8; TEXT], pos: usize) -> Option<Range<usize>> {
    if own[0] >> 6 != 0b10 {
        let len = own
            .iter()
            .position(|byte| *byte == 0xff)
            .unwrap_or(own.len());
        return Some(pos..pos + len);
    }
    let word = word_in(own, 0);
    let len = ((word >> 8 << 6) | (word & 0x3f)) as usize;
    let start = target(pos, word_in(own, 4))?;
    (len > LONGEST_INLINE).then_some(start..start + len)
}

/// Returns the content of a node at a position. What it leads to is not checked.
#[inline(always)]
fn view(own: &[u8; NODE], pos: usize) -> Option<View> {
    Some(match (own[0], own[4]) {
        (0, _) if own[1] <= 1 => View::Bool(own[1] == 1),
        (1, _) => View::Int(i64::from_le_bytes(own[8..16].try_into().ok()?)),
        (2, _) => View::Text(view_text(part(own, 4), pos + 4)?),
        (3, _) => {
            let start = target(pos + 4, word_in(own, 4))?;
            View::Shared(start..start + word_in(own, 8) as usize)
        }
        (4, 0) => View::Maybe(None),
        (4, 1) => View::Maybe(Some(target(pos + 8, word_in(own, 8))?)),
        (5, _) => View::List {
            first: target(pos + 4, word_in(own, 4))?,
            count: word_in(own, 8) as usize,
        },
        (6, _) => {
            let count = word_in(own, 8) as usize;
            let root = match count {
                0 => None,
                _ => Some(target(pos + 4, word_in(own, 4))?),
            };
            View::Ordered { root, count }
        }
        (7, _) => {
            let count = word_in(own, 8) as usize;
            let places = word_in(own, 12) as usize;
            let table = match count {
                0 => None,
                _ => Some(Table {
                    controls: target(pos + 4, word_in(own, 4))?,
                    places,
                }),
            };
            View::Hashed { table, count }
        }
        (8, _) => {
            let count = word_in(own, 8) as usize;
            let index = match count {
                0 => None,
                _ => Some(Index {
                    controls: target(pos + 4, word_in(own, 4))?,
                    places: word_in(own, 12) as usize,
                    entries: target(pos + 16, word_in(own, 16))?,
                }),
            };
            View::Kept { index, count }
        }
        _ => return None,
    })
}

pub fn view_at(bytes: &[u8], pos: usize) -> Option<View> {
    view(bytes.get(pos..)?.first_chunk()?, pos)
}

/// The check of an archive, with the end of the last region that was claimed.
pub struct Check<'a> {
    pub bytes: &'a [u8],
    pub claimed: usize,
    /// The positions of the shared texts that were visited, and where each ends.
    shared: HashMap<usize, usize>,
}

impl Check<'_> {
    /// Checks nodes side by side, which end at `end` at most, inside `depth` containers.
    fn nodes(&mut self, start: usize, count: usize, end: usize, depth: usize) -> Option<()> {
        let after = start.checked_add(count.checked_mul(NODE)?)?;
        if start < self.claimed || end < after || !start.is_multiple_of(ALIGN) {
            return None;
        }
        let (nodes, _) = self.bytes[start..after].as_chunks::<NODE>();
        for (i, own) in nodes.iter().enumerate() {
            self.node(own, start + i * NODE, start, depth)?;
        }
        self.claimed = after;
        Some(())
    }

    /// Checks a node whose region was claimed, and what it leads to, which ends at `end` at most.
    #[inline(always)]
    pub fn node(&mut self, own: &[u8; NODE], pos: usize, end: usize, depth: usize) -> Option<()> {
        match view(own, pos)? {
            View::Bool(_) | View::Int(_) => Some(()),
            View::Text(text) => self.text(text, end),
            View::Shared(text) => self.shared(text, end),
            _ if depth == MOST => None,
            View::Maybe(None)
            | View::Ordered { root: None, .. }
            | View::Hashed { table: None, .. }
            | View::Kept { index: None, .. } => Some(()),
            View::Maybe(Some(inside)) => self.nodes(inside, 1, end, depth + 1),
            View::List { first, count } => self.nodes(first, count, end, depth + 1),
            View::Ordered {
                root: Some(root),
                count,
            } => self.tree(root, count, end, depth + 1),
            View::Hashed {
                table: Some(table),
                count,
            } => self.table(table, count, end, depth + 1),
            View::Kept {
                index: Some(index),
                count,
            } => self.index(index, count, end, depth + 1),
        }
    }

    /// Checks a text that ends at `end` at most where it is out of line.
    #[inline(always)]
    pub fn text(&mut self, text: Range<usize>, end: usize) -> Option<()> {
        if text.len() > LONGEST_INLINE {
            if text.start < self.claimed || end < text.end {
                return None;
            }
            self.claimed = text.end;
        }
        str::from_utf8(&self.bytes[text]).ok()?;
        Some(())
    }

    /// Checks a shared text, at its first use as a text that is out of line.
    #[inline(always)]
    fn shared(&mut self, text: Range<usize>, end: usize) -> Option<()> {
        match self.shared.entry(text.start) {
            Entry::Occupied(there) => (*there.get() == text.end).then_some(()),
            Entry::Vacant(place) => {
                if text.start < self.claimed || end < text.end {
                    return None;
                }
                self.claimed = text.end;
                place.insert(text.end);
                str::from_utf8(&self.bytes[text]).ok()?;
                Some(())
            }
        }
    }
}

pub struct Archive {
    pub bytes: Vec<u8>,
    pub is_edited: bool,
    pub root: usize,
}

impl Archive {
    /// Returns the archive that bytes are, if they are one.
    pub fn open(bytes: Vec<u8>) -> Option<Archive> {
        let start = bytes.len().checked_sub(NODE)?;
        let root = start - start % ALIGN;
        let mut check = Check {
            bytes: &bytes,
            claimed: 0,
            shared: HashMap::new(),
        };
        check.nodes(root, 1, bytes.len(), 0)?;
        Some(Archive {
            bytes,
            root,
            is_edited: false,
        })
    }

    /// Returns the node that a path leads to, and its position.
    pub fn find(&self, path: &[Step]) -> Option<(usize, View)> {
        let mut pos = self.root;
        for step in path {
            pos = match (view_at(&self.bytes, pos)?, step) {
                (View::List { first, count }, Step::Place(place)) if *place < count as u64 => {
                    first + *place as usize * NODE
                }
                (View::Maybe(Some(inside)), Step::Inside) => inside,
                (View::Ordered { root, .. }, Step::Key(key)) => {
                    find_key(&self.bytes, root, key.as_bytes())?
                }
                (View::Hashed { table, .. }, Step::Key(key)) => {
                    find_in_table(&self.bytes, table, key)?
                }
                (View::Kept { index, .. }, Step::Key(key)) => {
                    find_in_index(&self.bytes, index, key)?
                }
                _ => return None,
            };
        }
        Some((pos, view_at(&self.bytes, pos)?))
    }

    /// Writes a leaf where a path leads. Returns whether it may replace what is there, or `None` if the path leads to
    /// nothing.
    pub fn set(&mut self, path: &[Step], leaf: &Leaf) -> Option<bool> {
        let (pos, there) = self.find(path)?;
        match (there, leaf) {
            (View::Bool(_), Leaf::Bool(value)) => self.bytes[pos + 1] = u8::from(*value),
            (View::Int(_), Leaf::Int(number)) => {
                self.bytes[pos + 8..pos + 16].copy_from_slice(&number.to_le_bytes());
            }
            (View::Text(old), Leaf::Text(new)) if old.len() == new.len() => {
                self.bytes[old].copy_from_slice(new.as_bytes());
            }
            _ => return Some(false),
        }
        self.is_edited = true;
        Some(true)
    }
}
