//! Ordered maps of archived documents in plain Rust: packed search trees, written, checked, searched and walked.

use crate::plain_archive::{
    ALIGN, ArchiveWriter, Check, NODE, NOTHING, TEXT, Target, offset, own_bytes, part, target, text_bytes,
    view_text, word_in,
};
use crate::{Node, Pairs, Refusal};
use std::cmp::Ordering;
use std::ops::Range;

/// The greatest number of entries of a node.
const MOST: usize = 5;
const MOST_LEVELS: usize = 32;
const KEYS: usize = 4;
const VALUES: usize = 48;
const LINKS: usize = VALUES + MOST * NODE;
const LEAF: usize = LINKS + 8;
const INNER: usize = LINKS + 4 * (MOST + 1);

fn key_place(i: usize) -> usize {
    KEYS + i * TEXT
}

fn value_place(i: usize) -> usize {
    VALUES + i * NODE
}

fn link_place(i: usize) -> usize {
    LINKS + 4 * i
}

// ---- trees that are written

type Entry<'a> = (&'a str, &'a Node<'a>);

impl<'a> ArchiveWriter<'a> {
    /// Writes the data of a node's entries, and the node after it. A leaf has no children.
    fn put_tree_node(
        &mut self,
        entries: &[Entry<'a>],
        children: &[Option<u32>],
    ) -> Result<u32, Refusal> {
        let mut targets = [(0, Target::default()); MOST];
        for (targets, (key, value)) in targets.iter_mut().zip(entries) {
            *targets = (self.put_text(key)?, self.put_data(value)?);
        }
        let start = self.align()?;
        let pos = start as usize;
        let mut own = [0; INNER];
        for (i, (key, value)) in entries.iter().enumerate() {
            let (of_key, of_value) = targets[i];
            let at = key_place(i);
            own[at..at + TEXT].copy_from_slice(&text_bytes(key, of_key, pos + at)?);
            let at = value_place(i);
            own[at..at + NODE].copy_from_slice(&own_bytes(value, of_value, pos + at)?);
        }
        if children.is_empty() {
            own[LINKS] = entries.len() as u8;
            self.bytes.extend_from_slice(&own[..LEAF]);
            return Ok(start);
        }
        own[0] = 1;
        for (i, child) in children.iter().enumerate() {
            let at = link_place(i);
            let link = child.map_or(Ok(NOTHING), |child| offset(child, pos + at))?;
            own[at..at + 4].copy_from_slice(&link);
        }
        self.bytes.extend_from_slice(&own);
        Ok(start)
    }

    /// Writes the tree below a pointer: `above` levels above the last one, which has `last` entries and `wide` places
    /// for nodes.
    fn put_levels(
        &mut self,
        entries: &mut impl Iterator<Item = Entry<'a>>,
        above: usize,
        wide: usize,
        last: usize,
    ) -> Result<Option<u32>, Refusal> {
        let leaf = match above {
            0 if last == 0 => return Ok(None),
            0 => last,
            1 if last == 0 => MOST,
            _ => 0,
        };
        let mut own = [("", &Node::Maybe(None)); MOST];
        if leaf > 0 {
            for (slot, entry) in own.iter_mut().zip(entries.take(leaf)) {
                *slot = entry;
            }
            return self.put_tree_node(&own[..leaf], &[]).map(Some);
        }
        let below = wide / (MOST + 1);
        let mut left = last;
        let mut children = [None; MOST + 1];
        for i in 0..MOST {
            let share = left.min(MOST * below);
            children[i] = self.put_levels(entries, above - 1, below, share)?;
            own[i] = entries.next().ok_or("the tree has too few entries")?;
            left -= share;
        }
        children[MOST] = self.put_levels(entries, above - 1, below, left)?;
        self.put_tree_node(&own, &children).map(Some)
    }

    /// Writes the tree of a map that is not empty, and returns the position of its root.
    pub fn put_tree(&mut self, pairs: &'a Pairs) -> Result<u32, Refusal> {
        let (mut above, mut wide) = (0, 1);
        while wide <= pairs.len() / (MOST + 1) {
            wide *= MOST + 1;
            above += 1;
        }
        let mut entries = pairs.iter().map(|(key, value)| (&**key, value));
        self.put_levels(&mut entries, above, wide, pairs.len() + 1 - wide)?
            .ok_or_else(|| "the tree has no root".into())
    }
}

// ---- trees that are checked

/// The number of the entries of a tree that were visited in order, and the key of the last one.
#[derive(Default)]
struct Visited {
    count: usize,
    last: Option<Range<usize>>,
}

impl Visited {
    /// Visits the next entry, whose key must be above the last one.
    fn visit(&mut self, bytes: &[u8], key: Range<usize>) -> Option<()> {
        let text = bytes.get(key.clone())?;
        if let Some(last) = self.last.replace(key)
            && bytes[last] >= *text
        {
            return None;
        }
        self.count += 1;
        Some(())
    }
}

impl Check<'_> {
    /// Checks a tree that ends at `end` at most, and whose values lie inside `depth` containers.
    pub fn tree(&mut self, root: usize, count: usize, end: usize, depth: usize) -> Option<()> {
        let mut visited = Visited::default();
        self.tree_node(root, end, depth, 1, &mut visited)?;
        (visited.count == count).then_some(())
    }

    fn tree_node(
        &mut self,
        pos: usize,
        end: usize,
        depth: usize,
        level: usize,
        visited: &mut Visited,
    ) -> Option<()> {
        if level > MOST_LEVELS || pos < self.claimed || !pos.is_multiple_of(ALIGN) {
            return None;
        }
        let size = match self.bytes.get(pos)? {
            0 => LEAF,
            1 => INNER,
            _ => return None,
        };
        let after = pos + size;
        if end < after {
            return None;
        }
        let own = &self.bytes[pos..after];
        let count = count(own);
        if count > MOST {
            return None;
        }
        let mut keys = [const { 0..0 }; MOST];
        for (i, key) in keys[..count].iter_mut().enumerate() {
            if let Some(link) = link(own, i) {
                let child = target(pos + link_place(i), link)?;
                self.tree_node(child, pos, depth, level + 1, visited)?;
            }
            *key = view_text(part(own, key_place(i)), pos + key_place(i))?;
            visited.visit(self.bytes, key.clone())?;
        }
        if let Some(link) = link(own, count) {
            let child = target(pos + link_place(count), link)?;
            self.tree_node(child, pos, depth, level + 1, visited)?;
        }
        for (i, key) in keys.into_iter().take(count).enumerate() {
            self.text(key, pos)?;
            let at = value_place(i);
            self.node(part(own, at), pos + at, pos, depth)?;
        }
        self.claimed = after;
        Some(())
    }
}

// ---- trees that are read

/// Returns the number of entries of a node.
fn count(own: &[u8]) -> usize {
    match own[0] {
        0 => word_in(own, LINKS) as usize,
        _ => MOST,
    }
}

/// Returns the offset of a child of a node, if there is one.
fn link(own: &[u8], i: usize) -> Option<u32> {
    if own[0] == 0 {
        return None;
    }
    let link = word_in(own, link_place(i));
    (link.to_le_bytes() != NOTHING).then_some(link)
}

/// A node of a checked tree, its position, and the bytes from there on.
#[derive(Clone, Copy)]
struct TreeNode<'a> {
    bytes: &'a [u8],
    pos: usize,
    own: &'a [u8],
}

impl<'a> TreeNode<'a> {
    fn at(bytes: &'a [u8], pos: usize) -> Self {
        let own = &bytes[pos..];
        TreeNode { bytes, pos, own }
    }

    fn key(&self, i: usize) -> &'a [u8] {
        let at = key_place(i);
        let text = view_text(part(self.own, at), self.pos + at);
        &self.bytes[text.expect("a checked text")]
    }

    fn child(&self, i: usize) -> Option<Self> {
        let pos = target(self.pos + link_place(i), link(self.own, i)?)?;
        Some(TreeNode::at(self.bytes, pos))
    }
}

/// Returns the position of the value of a key.
pub fn find_key(bytes: &[u8], root: Option<usize>, query: &[u8]) -> Option<usize> {
    let mut node = TreeNode::at(bytes, root?);
    'nodes: loop {
        let count = count(node.own);
        for i in 0..count {
            match query.cmp(node.key(i)) {
                Ordering::Less => {
                    node = node.child(i)?;
                    continue 'nodes;
                }
                Ordering::Equal => return Some(node.pos + value_place(i)),
                Ordering::Greater => {}
            }
        }
        node = node.child(count)?;
    }
}

/// A walk over the entries of a tree, each a key and the position of its value: the nodes from the root down to one, each
/// with the index of its next entry.
pub struct Walk<'a> {
    bytes: &'a [u8],
    stack: [(usize, usize); MOST_LEVELS],
    depth: usize,
}

impl<'a> Walk<'a> {
    fn new(bytes: &'a [u8]) -> Self {
        Walk {
            bytes,
            stack: [(0, 0); MOST_LEVELS],
            depth: 0,
        }
    }

    fn push(&mut self, node: TreeNode<'a>, next: usize) {
        self.stack[self.depth] = (node.pos, next);
        self.depth += 1;
    }

    /// Descends to the first entry below a node.
    fn descend(&mut self, mut at: Option<TreeNode<'a>>) {
        while let Some(node) = at {
            self.push(node, 0);
            at = node.child(0);
        }
    }

    /// Returns a walk over all entries.
    pub fn all(bytes: &'a [u8], root: Option<usize>) -> Self {
        let mut walk = Walk::new(bytes);
        walk.descend(root.map(|root| TreeNode::at(bytes, root)));
        walk
    }

    /// Returns a walk over the entries whose keys are not below another.
    pub fn from(bytes: &'a [u8], root: Option<usize>, low: &[u8]) -> Self {
        let mut walk = Walk::new(bytes);
        let mut at = root.map(|root| TreeNode::at(bytes, root));
        while let Some(node) = at {
            let count = count(node.own);
            let next = (0..count).find(|&i| node.key(i) >= low).unwrap_or(count);
            walk.push(node, next);
            at = node.child(next);
        }
        walk
    }
}

impl<'a> Iterator for Walk<'a> {
    type Item = (&'a [u8], usize);

    fn next(&mut self) -> Option<(&'a [u8], usize)> {
        while let Some((pos, next)) = self.stack[..self.depth].last_mut() {
            let (node, i) = (TreeNode::at(self.bytes, *pos), *next);
            if i == count(node.own) {
                self.depth -= 1;
                continue;
            }
            *next += 1;
            self.descend(node.child(i + 1));
            return Some((node.key(i), node.pos + value_place(i)));
        }
        None
    }
}
