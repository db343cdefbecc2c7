//! The two commands of cab, and cab_show, in plain, safe Rust, with which bench/run.sh and bench/maps.sh compare them.
//! Archives, answers and texts are theirs, and the same texts, archives, lines and inputs are refused; the wording of a
//! refusal differs. As in cab a text is read into a document, for which nothing is reserved by a count, and then that is
//! archived.

mod plain_archive;
mod plain_index;
mod plain_load;
mod plain_probing;
mod plain_table;
mod plain_tree;

use plain_archive::{Archive, View, archive_of};
use plain_index::entries;
use plain_load::write_node;
use plain_table::key_at;
use plain_tree::Walk;
use std::borrow::Cow;
use std::collections::{BTreeMap, HashSet};
use std::env;
use std::error::Error;
use std::fs::{self, OpenOptions};
use std::io::{self, BufRead, BufReader, BufWriter, IsTerminal, Read, Write};
use std::mem;
use std::str::{FromStr, Split};

/// The greatest number of containers that lie in one another.
const MOST: usize = 64;

/// The greatest number of pairs that are inserted into a map as they are read. More are read first, and then make a map
/// at once, which takes less time for them, and more for few.
const FEW_PAIRS: u64 = if cfg!(pair_by_pair) { u64::MAX } else { 11 };

const LONGEST_LINE: usize = 1 << 20;
const LONGEST_INPUT: usize = u32::MAX as usize;

type Refusal = Box<dyn Error>;

enum Leaf<'a> {
    Bool(bool),
    Int(i64),
    Text(Cow<'a, str>),
}

enum Node<'a> {
    Leaf(Leaf<'a>),
    Shared(Cow<'a, str>),
    Maybe(Option<Box<Node<'a>>>),
    List(Vec<Node<'a>>),
    Ordered(Pairs<'a>),
    Hashed(Pairs<'a>),
    Kept(Vec<Pair<'a>>),
}

type Pair<'a> = (Cow<'a, str>, Node<'a>);

type Pairs<'a> = BTreeMap<Cow<'a, str>, Node<'a>>;

// ---- texts

/// Reads a number in its shortest form.
fn read_number<T: FromStr>(digits: &str) -> Option<T> {
    let unsigned = digits.strip_prefix('-').unwrap_or(digits);
    if digits == "0" || unsigned.starts_with(|c| matches!(c, '1'..='9')) {
        digits.parse().ok()
    } else {
        None
    }
}

fn unescape(escaped: &str) -> Option<Cow<'_, str>> {
    let special = |byte| matches!(byte, b'\\' | b' ');
    if !escaped.bytes().any(special) {
        return Some(Cow::Borrowed(escaped));
    }
    let mut text = String::with_capacity(escaped.len());
    let mut rest = escaped;
    while let Some(at) = rest.bytes().position(special) {
        text.push_str(&rest[..at]);
        text.push(match rest.as_bytes()[at..] {
            [b'\\', b'\\', ..] => '\\',
            [b'\\', b'n', ..] => '\n',
            [b'\\', b's', ..] => ' ',
            _ => return None,
        });
        rest = &rest[at + 2..];
    }
    text.push_str(rest);
    Some(Cow::Owned(text))
}

/// Reads a text after the apostrophe that texts and keys begin with.
fn read_quoted(argument: &str) -> Option<Cow<'_, str>> {
    argument.strip_prefix('\'').and_then(unescape)
}

fn read_leaf<'a>(kind: &str, argument: &'a str) -> Option<Leaf<'a>> {
    match kind {
        "int" => read_number(argument).map(Leaf::Int),
        "text" => read_quoted(argument).map(Leaf::Text),
        "bool" => argument.parse().ok().map(Leaf::Bool),
        _ => None,
    }
}

/// Returns what is before and after the first byte `separator`, which is ASCII.
fn split_once(text: &str, separator: u8) -> Option<(&str, &str)> {
    let at = text.bytes().position(|byte| byte == separator)?;
    Some((&text[..at], &text[at + 1..]))
}

/// The lines of a text, each ended by a newline.
struct Lines<'a> {
    rest: &'a str,
    taken: usize,
}

impl<'a> Lines<'a> {
    #[inline(always)]
    fn next(&mut self) -> Option<&'a str> {
        self.taken += 1;
        let (line, rest) = split_once(self.rest, b'\n')?;
        self.rest = rest;
        Some(line)
    }

    /// Reads a node inside `depth` containers.
    fn next_node(&mut self, depth: usize) -> Option<Node<'a>> {
        let line = self.next()?;
        if depth < MOST {
            match line {
                "none" => return Some(Node::Maybe(None)),
                "some" => {
                    let inside = self.next_node(depth + 1)?;
                    return Some(Node::Maybe(Some(Box::new(inside))));
                }
                _ => {}
            }
        }
        match split_once(line, b' ')? {
            ("list", count) if depth < MOST => self.next_elements(read_number(count)?, depth + 1),
            ("ordered", count) if depth < MOST => self
                .next_pairs(read_number(count)?, depth + 1)
                .map(Node::Ordered),
            ("hashed", count) if depth < MOST => self
                .next_pairs(read_number(count)?, depth + 1)
                .map(Node::Hashed),
            ("kept", count) if depth < MOST => {
                self.next_kept(read_number(count)?, depth + 1).map(Node::Kept)
            }
            ("shared", argument) => read_quoted(argument).map(Node::Shared),
            (kind, argument) => read_leaf(kind, argument).map(Node::Leaf),
        }
    }

    fn next_elements(&mut self, count: u64, depth: usize) -> Option<Node<'a>> {
        let mut elements = Vec::new();
        for _ in 0..count {
            elements.push(self.next_node(depth)?);
        }
        Some(Node::List(elements))
    }

    /// Reads a pair, whose key must be above the one before.
    fn next_pair(&mut self, before: Option<&str>, depth: usize) -> Option<Pair<'a>> {
        let key = read_quoted(self.next()?)?;
        if before.is_some_and(|before| *key <= *before) {
            return None;
        }
        Some((key, self.next_node(depth)?))
    }

    /// Reads pairs, whose keys must be distinct: their escaped forms are where they are.
    fn next_kept(&mut self, count: u64, depth: usize) -> Option<Vec<Pair<'a>>> {
        let mut pairs = Vec::new();
        let mut met = HashSet::new();
        for _ in 0..count {
            let line = self.next()?;
            let key = read_quoted(line)?;
            if !met.insert(line) {
                return None;
            }
            pairs.push((key, self.next_node(depth)?));
        }
        Some(pairs)
    }

    fn next_pairs(&mut self, count: u64, depth: usize) -> Option<Pairs<'a>> {
        if count <= FEW_PAIRS {
            let mut pairs = Pairs::new();
            for _ in 0..count {
                let before = pairs.last_key_value().map(|(key, _)| &**key);
                let (key, node) = self.next_pair(before, depth)?;
                pairs.insert(key, node);
            }
            return Some(pairs);
        }
        let mut pairs: Vec<Pair<'a>> = Vec::new();
        for _ in 0..count {
            let before = pairs.last().map(|(key, _)| &**key);
            let pair = self.next_pair(before, depth)?;
            pairs.push(pair);
        }
        Some(pairs.into_iter().collect())
    }
}

fn read_document(text: &str) -> Result<Node<'_>, Refusal> {
    let mut lines = Lines {
        rest: text,
        taken: 0,
    };
    match lines.next_node(0) {
        Some(document) if lines.rest.is_empty() => Ok(document),
        Some(_) => Err(format!("line {} follows the document", lines.taken + 1).into()),
        None => Err(format!("line {} is refused", lines.taken).into()),
    }
}

// ---- lines

enum Step<'a> {
    Place(u64),
    Inside,
    Key(Cow<'a, str>),
}

type Path<'a> = Vec<Step<'a>>;

enum Line<'a> {
    Get(Path<'a>),
    Keys(Path<'a>),
    /// The keys from one on and below another.
    Range([Cow<'a, str>; 2], Path<'a>),
    Set(Path<'a>, Leaf<'a>),
}

fn read_step(word: &str) -> Option<Step<'_>> {
    if word == "?" {
        return Some(Step::Inside);
    }
    match word.strip_prefix('#') {
        Some(place) => read_number(place).map(Step::Place),
        None => read_quoted(word).map(Step::Key),
    }
}

fn read_path<'a>(words: Split<'a, char>) -> Option<Path<'a>> {
    words.map(read_step).collect()
}

fn read_line(line: &[u8]) -> Option<Line<'_>> {
    let mut words = str::from_utf8(line).ok()?.split(' ');
    match words.next()? {
        "get" => read_path(words).map(Line::Get),
        "keys" => read_path(words).map(Line::Keys),
        "range" => {
            let bounds = [read_quoted(words.next()?)?, read_quoted(words.next()?)?];
            Some(Line::Range(bounds, read_path(words)?))
        }
        "set" => {
            let leaf = read_leaf(words.next()?, words.next()?)?;
            Some(Line::Set(read_path(words)?, leaf))
        }
        _ => None,
    }
}

fn write_head(bytes: &[u8], there: View, out: &mut impl Write) -> io::Result<()> {
    match there {
        View::Bool(value) => writeln!(out, "bool {value}"),
        View::Int(number) => writeln!(out, "int {number}"),
        View::Text(text) => write_quoted("text '", &bytes[text], out),
        View::Shared(text) => write_quoted("shared '", &bytes[text], out),
        View::Maybe(None) => out.write_all(b"none\n"),
        View::Maybe(Some(_)) => out.write_all(b"some\n"),
        View::List { count, .. } => writeln!(out, "list {count}"),
        View::Ordered { count, .. } => writeln!(out, "ordered {count}"),
        View::Hashed { count, .. } => writeln!(out, "hashed {count}"),
        View::Kept { count, .. } => writeln!(out, "kept {count}"),
    }
}

fn write_keys<'a>(
    count: usize,
    keys: impl Iterator<Item = &'a [u8]>,
    out: &mut impl Write,
) -> io::Result<()> {
    write!(out, "keys {count}")?;
    for key in keys {
        out.write_all(b" '")?;
        write_escaped(key, out)?;
    }
    out.write_all(b"\n")
}

/// Writes a head with the text after its apostrophe.
fn write_quoted(head: &str, text: &[u8], out: &mut impl Write) -> io::Result<()> {
    out.write_all(head.as_bytes())?;
    write_escaped(text, out)?;
    out.write_all(b"\n")
}

fn write_escaped(text: &[u8], out: &mut impl Write) -> io::Result<()> {
    let special = |byte: &u8| matches!(byte, b'\\' | b'\n' | b' ');
    let mut rest = text;
    while let Some(at) = rest.iter().position(special) {
        out.write_all(&rest[..at])?;
        out.write_all(match rest[at] {
            b'\\' => b"\\\\",
            b'\n' => b"\\n",
            _ => b"\\s",
        })?;
        rest = &rest[at + 1..];
    }
    out.write_all(rest)
}

/// Executes a line, and writes its answer.
fn carry_out(archive: &mut Archive, line: &Line, out: &mut impl Write) -> io::Result<()> {
    match line {
        Line::Get(path) => match archive.find(path) {
            Some((_, there)) => write_head(&archive.bytes, there, out),
            None => out.write_all(b"missing\n"),
        },
        Line::Keys(path) => match archive.find(path) {
            Some((_, View::Ordered { root, count })) => {
                write_keys(count, Walk::all(&archive.bytes, root).map(|(key, _)| key), out)
            }
            Some((_, View::Kept { index, count })) => {
                let keys = entries(index, count).flat_map(|at| key_at(&archive.bytes, at));
                write_keys(count, keys, out)
            }
            Some(_) => out.write_all(b"wrong\n"),
            None => out.write_all(b"missing\n"),
        },
        Line::Range([low, high], path) => match archive.find(path) {
            Some((_, View::Ordered { root, .. })) => {
                let keys: Vec<_> = Walk::from(&archive.bytes, root, low.as_bytes())
                    .map(|(key, _)| key)
                    .take_while(|key| *key < high.as_bytes())
                    .collect();
                write_keys(keys.len(), keys.into_iter(), out)
            }
            Some(_) => out.write_all(b"wrong\n"),
            None => out.write_all(b"missing\n"),
        },
        Line::Set(path, leaf) => out.write_all(match archive.set(path, leaf) {
            Some(true) => b"ok\n",
            Some(false) => b"refused\n",
            None => b"missing\n",
        }),
    }
}

// ---- the commands

fn build(text: &str, archive: &str) -> Result<(), Refusal> {
    let text = fs::read_to_string(text)?;
    let document = read_document(&text)?;
    let bytes = archive_of(&document)?;
    // As in cab the document is not dropped: the program ends.
    mem::forget(document);
    fs::write(archive, &bytes)?;
    writeln!(io::stdout(), "built {}", bytes.len())?;
    Ok(())
}

/// Executes the lines of the standard input.
fn carry_out_lines(archive: &mut Archive) -> Result<(), Refusal> {
    let is_prompt = io::stdin().is_terminal();
    let mut input = BufReader::with_capacity(65536, io::stdin().lock());
    let mut out = BufWriter::with_capacity(65536, io::stdout().lock());
    let mut line = Vec::new();
    let mut total = 0;
    loop {
        line.clear();
        let mut longest = input.by_ref().take(LONGEST_LINE as u64 + 1);
        total += longest.read_until(b'\n', &mut line)?;
        if line.is_empty() {
            return Ok(out.flush()?);
        }
        if line.last() == Some(&b'\n') {
            line.pop();
        }
        if line.len() > LONGEST_LINE || total > LONGEST_INPUT {
            return Err("a line or the input is too long".into());
        }
        match read_line(&line) {
            Some(line) => carry_out(archive, &line, &mut out)?,
            None => out.write_all(b"bad\n")?,
        }
        if is_prompt {
            out.flush()?;
        }
    }
}

fn run(path: &str) -> Result<(), Refusal> {
    let mut archive = Archive::open(fs::read(path)?).ok_or("the bytes are no archive")?;
    let outcome = carry_out_lines(&mut archive);
    if archive.is_edited {
        OpenOptions::new()
            .write(true)
            .open(path)?
            .write_all(&archive.bytes)?;
    }
    outcome
}

/// Writes the text of the document that an archive is of, which is read whole first.
fn show(path: &str) -> Result<(), Refusal> {
    let archive = Archive::open(fs::read(path)?).ok_or("the bytes are no archive")?;
    let document = archive.load().ok_or("the bytes are no archive")?;
    let mut out = BufWriter::with_capacity(65536, io::stdout().lock());
    write_node(&document, &mut out)?;
    Ok(out.flush()?)
}

fn main() -> Result<(), Refusal> {
    let words: Vec<String> = env::args().skip(1).collect();
    let words: Vec<&str> = words.iter().map(String::as_str).collect();
    match words.as_slice() {
        ["build", text, archive] => build(text, archive),
        ["run", archive] => run(archive),
        ["show", archive] => show(archive),
        _ => Err("plain build TEXT ARCHIVE | plain run ARCHIVE | plain show ARCHIVE".into()),
    }
}
