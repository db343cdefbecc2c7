//! Documents in plain Rust that are read back from archives, and written as texts.

use crate::plain_archive::{Archive, NODE, TEXT, View, view_at};
use crate::plain_index::entries;
use crate::plain_table::{key_at, positions};
use crate::plain_tree::Walk;
use crate::{Leaf, Node, Pair, write_quoted};
use std::borrow::Cow;
use std::io::{self, Write};

type Owned = Node<'static>;

impl Archive {
    /// Returns the document, whose texts are copied.
    pub fn load(&self) -> Option<Owned> {
        load_node(&self.bytes, self.root)
    }
}

fn load_text(bytes: &[u8]) -> Option<Cow<'static, str>> {
    Some(Cow::Owned(str::from_utf8(bytes).ok()?.to_owned()))
}

/// Reads a key, and the node at a position.
fn load_pair(bytes: &[u8], key: &[u8], pos: usize) -> Option<Pair<'static>> {
    Some((load_text(key)?, load_node(bytes, pos)?))
}

fn load_node(bytes: &[u8], pos: usize) -> Option<Owned> {
    let pair_at = |at| load_pair(bytes, key_at(bytes, at)?, at + TEXT);
    Some(match view_at(bytes, pos)? {
        View::Bool(value) => Node::Leaf(Leaf::Bool(value)),
        View::Int(number) => Node::Leaf(Leaf::Int(number)),
        View::Text(text) => Node::Leaf(Leaf::Text(load_text(&bytes[text])?)),
        View::Shared(text) => Node::Shared(load_text(&bytes[text])?),
        View::Maybe(None) => Node::Maybe(None),
        View::Maybe(Some(inside)) => Node::Maybe(Some(Box::new(load_node(bytes, inside)?))),
        View::List { first, count } => Node::List(
            (0..count)
                .map(|i| load_node(bytes, first + i * NODE))
                .collect::<Option<_>>()?,
        ),
        View::Ordered { root, .. } => Node::Ordered(
            Walk::all(bytes, root)
                .map(|(key, at)| load_pair(bytes, key, at))
                .collect::<Option<_>>()?,
        ),
        View::Hashed { table, .. } => {
            Node::Hashed(positions(bytes, table).map(pair_at).collect::<Option<_>>()?)
        }
        View::Kept { index, count } => {
            Node::Kept(entries(index, count).map(pair_at).collect::<Option<_>>()?)
        }
    })
}

fn write_pairs<'a>(
    head: &str,
    pairs: impl ExactSizeIterator<Item = (&'a Cow<'static, str>, &'a Owned)>,
    out: &mut impl Write,
) -> io::Result<()> {
    writeln!(out, "{head} {}", pairs.len())?;
    for (key, node) in pairs {
        write_quoted("'", key.as_bytes(), out)?;
        write_node(node, out)?;
    }
    Ok(())
}

/// Writes the text of a document.
pub fn write_node(node: &Owned, out: &mut impl Write) -> io::Result<()> {
    match node {
        Node::Leaf(Leaf::Bool(value)) => writeln!(out, "bool {value}"),
        Node::Leaf(Leaf::Int(number)) => writeln!(out, "int {number}"),
        Node::Leaf(Leaf::Text(text)) => write_quoted("text '", text.as_bytes(), out),
        Node::Shared(text) => write_quoted("shared '", text.as_bytes(), out),
        Node::Maybe(None) => out.write_all(b"none\n"),
        Node::Maybe(Some(inside)) => {
            out.write_all(b"some\n")?;
            write_node(inside, out)
        }
        Node::List(nodes) => {
            writeln!(out, "list {}", nodes.len())?;
            nodes.iter().try_for_each(|node| write_node(node, out))
        }
        Node::Ordered(pairs) => write_pairs("ordered", pairs.iter(), out),
        Node::Hashed(pairs) => write_pairs("hashed", pairs.iter(), out),
        Node::Kept(pairs) => write_pairs("kept", pairs.iter().map(|(key, node)| (key, node)), out),
    }
}
