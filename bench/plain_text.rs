//! Texts of documents in plain Rust, read from the standard input and written back, with which bench/text.sh compares
//! cabinet_text_session. The same texts are refused, for the same line and by the same cause.

use std::collections::{BTreeMap, BTreeSet};
use std::fmt;
use std::io::{self, BufWriter, Read, Write};
use std::process::ExitCode;
use std::rc::Rc;
use std::str::FromStr;

/// The greatest number of containers that lie in one another.
const MOST: usize = 64;

enum Node {
    Bool(bool),
    Int(i64),
    Text(String),
    Shared(Rc<str>),
    Maybe(Option<Box<Node>>),
    List(Vec<Node>),
    Ordered(BTreeMap<String, Node>),
    Hashed(BTreeMap<String, Node>),
    Kept(Vec<(String, Node)>),
}

#[derive(Clone, Copy, Debug)]
enum Cause {
    NotUtf8,
    NoNewline,
    EndTooEarly,
    KeyExpected,
    BadEscape,
    KeyOrder,
    KeyRepeated,
    UnknownHead,
    BadNumber,
    TooDeep,
    LineAfterEnd,
}

struct Refusal {
    line: u64,
    cause: Cause,
}

impl fmt::Display for Refusal {
    fn fmt(&self, f: &mut fmt::Formatter<'_>) -> fmt::Result {
        write!(f, "line {}: {:?}", self.line, self.cause)
    }
}

// ---- reading

/// Reads a number in its shortest form.
fn read_number<T: FromStr>(digits: &str) -> Result<T, Cause> {
    let unsigned = digits.strip_prefix('-').unwrap_or(digits);
    if digits == "0" || unsigned.starts_with(|c| matches!(c, '1'..='9')) {
        digits.parse().map_err(|_| Cause::BadNumber)
    } else {
        Err(Cause::BadNumber)
    }
}

fn unescape(escaped: &str) -> Result<String, Cause> {
    let mut text = String::with_capacity(escaped.len());
    let mut rest = escaped;
    while let Some(at) = rest.find(['\\', ' ']) {
        text.push_str(&rest[..at]);
        text.push(match rest.as_bytes()[at..] {
            [b'\\', b'\\', ..] => '\\',
            [b'\\', b'n', ..] => '\n',
            [b'\\', b's', ..] => ' ',
            _ => return Err(Cause::BadEscape),
        });
        rest = &rest[at + 2..];
    }
    text.push_str(rest);
    Ok(text)
}

/// The rest of a text, and the number of lines taken from it.
struct Lines<'a> {
    rest: &'a [u8],
    taken: u64,
}

impl<'a> Lines<'a> {
    /// Returns the next line without its newline, if there is one.
    fn next(&mut self) -> Result<Option<&'a str>, Cause> {
        self.taken += 1;
        if self.rest.is_empty() {
            return Ok(None);
        }
        let end = self.rest.iter().position(|byte| *byte == b'\n');
        let line = &self.rest[..end.unwrap_or(self.rest.len())];
        let line = str::from_utf8(line).map_err(|_| Cause::NotUtf8)?;
        self.rest = &self.rest[end.ok_or(Cause::NoNewline)? + 1..];
        Ok(Some(line))
    }

    /// Returns the next line, which must exist.
    fn due(&mut self) -> Result<&'a str, Cause> {
        self.next()?.ok_or(Cause::EndTooEarly)
    }

    /// Reads a key, and returns it with its escaped form.
    fn key(&mut self) -> Result<(String, &'a str), Cause> {
        let line = self.due()?;
        let argument = line.strip_prefix('\'').ok_or(Cause::KeyExpected)?;
        Ok((unescape(argument)?, argument))
    }

    fn node(&mut self, depth: usize) -> Result<Node, Cause> {
        let line = self.due()?;
        if let Some((word, argument)) = line.split_once(' ') {
            match word {
                "int" => return read_number(argument).map(Node::Int),
                "bool" => {
                    let value = argument.parse().map_err(|_| Cause::UnknownHead)?;
                    return Ok(Node::Bool(value));
                }
                "text" | "shared" => {
                    let text = argument.strip_prefix('\'').ok_or(Cause::UnknownHead)?;
                    let text = unescape(text)?;
                    return Ok(if word == "text" {
                        Node::Text(text)
                    } else {
                        Node::Shared(text.into())
                    });
                }
                "list" | "ordered" | "hashed" | "kept" => {
                    let count = read_number(argument)?;
                    if depth == MOST {
                        return Err(Cause::TooDeep);
                    }
                    return match word {
                        "list" => self.list(count, depth + 1).map(Node::List),
                        "ordered" => self.map(count, depth + 1).map(Node::Ordered),
                        "hashed" => self.map(count, depth + 1).map(Node::Hashed),
                        _ => self.kept(count, depth + 1).map(Node::Kept),
                    };
                }
                _ => return Err(Cause::UnknownHead),
            }
        }
        if line != "none" && line != "some" {
            return Err(Cause::UnknownHead);
        }
        if depth == MOST {
            return Err(Cause::TooDeep);
        }
        if line == "none" {
            return Ok(Node::Maybe(None));
        }
        Ok(Node::Maybe(Some(Box::new(self.node(depth + 1)?))))
    }

    fn list(&mut self, count: u64, depth: usize) -> Result<Vec<Node>, Cause> {
        let mut nodes = Vec::new();
        for _ in 0..count {
            nodes.push(self.node(depth)?);
        }
        Ok(nodes)
    }

    fn map(&mut self, count: u64, depth: usize) -> Result<BTreeMap<String, Node>, Cause> {
        let mut pairs = BTreeMap::new();
        for _ in 0..count {
            let (key, _) = self.key()?;
            if pairs.last_key_value().is_some_and(|(last, _)| key <= *last) {
                return Err(Cause::KeyOrder);
            }
            let node = self.node(depth)?;
            pairs.insert(key, node);
        }
        Ok(pairs)
    }

    fn kept(&mut self, count: u64, depth: usize) -> Result<Vec<(String, Node)>, Cause> {
        let mut pairs = Vec::new();
        let mut seen = BTreeSet::new();
        for _ in 0..count {
            let (key, argument) = self.key()?;
            if !seen.insert(argument) {
                return Err(Cause::KeyRepeated);
            }
            pairs.push((key, self.node(depth)?));
        }
        Ok(pairs)
    }

    fn document(&mut self) -> Result<Node, Cause> {
        let root = self.node(0)?;
        match self.next()? {
            None => Ok(root),
            Some(_) => Err(Cause::LineAfterEnd),
        }
    }
}

// ---- writing

fn write_escaped_line(word: &str, text: &str, out: &mut impl Write) -> io::Result<()> {
    out.write_all(word.as_bytes())?;
    let mut rest = text;
    while let Some(at) = rest.find(['\\', '\n', ' ']) {
        out.write_all(&rest.as_bytes()[..at])?;
        out.write_all(match rest.as_bytes()[at] {
            b'\\' => b"\\\\",
            b'\n' => b"\\n",
            _ => b"\\s",
        })?;
        rest = &rest[at + 1..];
    }
    out.write_all(rest.as_bytes())?;
    out.write_all(b"\n")
}

fn write_pairs<'a>(
    pairs: impl Iterator<Item = (&'a String, &'a Node)>,
    out: &mut impl Write,
) -> io::Result<()> {
    for (key, node) in pairs {
        write_escaped_line("'", key, out)?;
        write_node(node, out)?;
    }
    Ok(())
}

fn write_node(node: &Node, out: &mut impl Write) -> io::Result<()> {
    match node {
        Node::Bool(value) => writeln!(out, "bool {value}"),
        Node::Int(number) => writeln!(out, "int {number}"),
        Node::Text(text) => write_escaped_line("text '", text, out),
        Node::Shared(text) => write_escaped_line("shared '", text, out),
        Node::Maybe(None) => writeln!(out, "none"),
        Node::Maybe(Some(inside)) => {
            writeln!(out, "some")?;
            write_node(inside, out)
        }
        Node::List(nodes) => {
            writeln!(out, "list {}", nodes.len())?;
            nodes.iter().try_for_each(|node| write_node(node, out))
        }
        Node::Ordered(pairs) => {
            writeln!(out, "ordered {}", pairs.len())?;
            write_pairs(pairs.iter(), out)
        }
        Node::Hashed(pairs) => {
            writeln!(out, "hashed {}", pairs.len())?;
            write_pairs(pairs.iter(), out)
        }
        Node::Kept(pairs) => {
            writeln!(out, "kept {}", pairs.len())?;
            write_pairs(pairs.iter().map(|(key, node)| (key, node)), out)
        }
    }
}

fn copy() -> io::Result<Result<(), Refusal>> {
    let mut text = Vec::new();
    io::stdin().read_to_end(&mut text)?;
    let mut lines = Lines {
        rest: &text,
        taken: 0,
    };
    match lines.document() {
        Err(cause) => Ok(Err(Refusal {
            line: lines.taken,
            cause,
        })),
        Ok(root) => {
            let mut out = BufWriter::with_capacity(65536, io::stdout().lock());
            write_node(&root, &mut out)?;
            out.flush()?;
            Ok(Ok(()))
        }
    }
}

fn main() -> ExitCode {
    match copy() {
        Ok(Ok(())) => return ExitCode::SUCCESS,
        Ok(Err(refusal)) => eprintln!("{refusal}"),
        Err(error) => eprintln!("{error}"),
    }
    ExitCode::FAILURE
}
