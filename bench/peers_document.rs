//! The documents that peers.rs compares, as plain values in memory, the questions and edits about them, and what a
//! format with such a document is asked to do.

use crate::measured::mixed;
use std::collections::HashMap;
use std::error::Error;
use std::fs;
use std::path::Path;

pub type Refusal = Box<dyn Error>;

/// A value of a map.
#[cfg_attr(
    has_rkyv,
    derive(rkyv::Archive, rkyv::Serialize),
    archive_attr(derive(bytecheck::CheckBytes))
)]
#[derive(Clone)]
pub enum Value {
    Number(i64),
    Text(String),
}

#[cfg_attr(
    has_rkyv,
    derive(rkyv::Archive, rkyv::Serialize),
    archive_attr(derive(bytecheck::CheckBytes))
)]
pub struct Record {
    pub active: bool,
    pub id: i64,
    pub mail: String,
    pub name: String,
    pub score: i64,
}

/// A field of a record.
#[derive(Clone, Copy)]
#[repr(C)]
pub enum Field {
    Active,
    Id,
    Mail,
    Name,
    Score,
}

impl Field {
    pub const ALL: [Field; 5] = [
        Field::Active,
        Field::Id,
        Field::Mail,
        Field::Name,
        Field::Score,
    ];

    pub fn name(self) -> &'static str {
        match self {
            Field::Active => "active",
            Field::Id => "id",
            Field::Mail => "mail",
            Field::Name => "name",
            Field::Score => "score",
        }
    }
}

/// A question: a field of the record at a place.
#[derive(Clone, Copy)]
#[repr(C)]
pub struct FieldOf {
    pub record: usize,
    pub field: Field,
}

/// An edit: the new score of the record at a place.
#[derive(Clone, Copy)]
#[repr(C)]
pub struct ScoreOf {
    pub record: usize,
    pub score: i64,
}

/// A list of records.
pub struct Records {
    pub text: String,
    pub records: Vec<Record>,
    pub questions: Vec<FieldOf>,
    pub edits: Vec<ScoreOf>,
}

/// One map, by ascending keys.
pub struct Map {
    pub text: String,
    pub pairs: Vec<(String, Value)>,
    pub questions: Vec<String>,
    /// A key whose value is a number, and the new number.
    pub edits: Vec<(String, i64)>,
}

/// What a question finds.
#[derive(Clone, Debug, PartialEq, Eq)]
pub enum Found {
    Missing,
    Bool(bool),
    Number(i64),
    Text(String),
}

impl Found {
    /// Returns the line that answers a question so, without its end.
    pub fn head(&self) -> String {
        match self {
            Found::Missing => "missing".to_string(),
            Found::Bool(value) => format!("bool {value}"),
            Found::Number(number) => format!("int {number}"),
            Found::Text(text) => {
                let escaped = text.replace('\\', "\\\\").replace('\n', "\\n");
                format!("text '{}", escaped.replace(' ', "\\s"))
            }
        }
    }

    /// Returns the number, the length of the text, or 0.
    pub fn sum(&self) -> u64 {
        match self {
            Found::Missing => 0,
            Found::Bool(value) => u64::from(*value),
            Found::Number(number) => *number as u64,
            Found::Text(text) => text.len() as u64,
        }
    }
}

/// What each question finds, before and after the edits.
pub struct Wanted {
    pub before: Vec<Found>,
    pub after: Vec<Found>,
}

/// A format, with one document in it.
pub trait Peer {
    fn name(&self) -> &'static str;
    /// Makes the bytes of the document anew, and returns their number.
    fn build(&mut self) -> Result<usize, Refusal>;
    /// Checks all that is relied on before the bytes are trusted, or returns nothing where there is no such check.
    fn check(&mut self) -> Option<bool>;
    /// Returns the line that answers a question, without its end.
    fn head(&mut self, question: usize) -> Result<String, Refusal>;
    /// Answers all questions, and returns the sum of the numbers and of the lengths of the texts that are found, or,
    /// where `is_spelling`, of the lengths of the answers with their ends.
    fn sum(&mut self) -> u64;
    /// Returns whether questions are lines that are read, and answers lines that are spelled.
    fn is_spelling(&self) -> bool {
        false
    }
    /// Does all edits, and returns how many were done, or nothing where numbers cannot be edited in place.
    fn edit(&mut self) -> Option<usize>;
}

// ---- reading

/// Returns the rows of a file, split at tabulators.
fn rows(text: &str) -> impl Iterator<Item = Vec<&str>> {
    text.lines().map(|line| line.split('\t').collect())
}

/// Returns the places of `count` questions or edits, in no order, below a number.
fn places(count: usize, below: usize) -> impl Iterator<Item = usize> {
    mixed(count).map(move |n| n as usize % below)
}

fn record_of(row: &[&str]) -> Result<Record, Refusal> {
    let [_, active, id, mail, name, score] = row else {
        return Err("a record has not five fields".into());
    };
    Ok(Record {
        active: active.parse()?,
        id: id.parse()?,
        mail: mail.to_string(),
        name: name.to_string(),
        score: score.parse()?,
    })
}

impl Records {
    /// Reads the document of the kind from a folder.
    pub fn read(folder: &Path, count: usize) -> Result<Self, Refusal> {
        let table = fs::read_to_string(folder.join("records.rows"))?;
        let records: Vec<Record> = rows(&table)
            .map(|row| record_of(&row))
            .collect::<Result<_, _>>()?;
        let places = || places(count, records.len()).enumerate();
        let question = |(i, record)| FieldOf {
            record,
            field: Field::ALL[i % Field::ALL.len()],
        };
        let edit = |(i, record)| ScoreOf {
            record,
            score: i as i64,
        };
        Ok(Records {
            text: fs::read_to_string(folder.join("records.text"))?,
            questions: places().map(question).collect(),
            edits: places().map(edit).collect(),
            records,
        })
    }

    fn found(&self, of: &FieldOf) -> Found {
        let record = &self.records[of.record];
        match of.field {
            Field::Active => Found::Bool(record.active),
            Field::Id => Found::Number(record.id),
            Field::Mail => Found::Text(record.mail.clone()),
            Field::Name => Found::Text(record.name.clone()),
            Field::Score => Found::Number(record.score),
        }
    }

    pub fn wanted(&self) -> Wanted {
        let edits: HashMap<usize, i64> =
            self.edits.iter().map(|of| (of.record, of.score)).collect();
        let after = |of: &FieldOf| match (of.field, edits.get(&of.record)) {
            (Field::Score, Some(&score)) => Found::Number(score),
            _ => self.found(of),
        };
        Wanted {
            before: self.questions.iter().map(|of| self.found(of)).collect(),
            after: self.questions.iter().map(after).collect(),
        }
    }

    /// Returns the lines that request the same as the questions and the edits.
    pub fn lines(&self) -> (Vec<String>, Vec<String>) {
        let get = |of: &FieldOf| format!("get #{} '{}", of.record, of.field.name());
        let set = |of: &ScoreOf| {
            let name = Field::Score.name();
            format!("set int {} #{} '{name}", of.score, of.record)
        };
        (
            self.questions.iter().map(get).collect(),
            self.edits.iter().map(set).collect(),
        )
    }
}

fn pair_of(row: &[&str]) -> Result<(String, Value), Refusal> {
    let [key, value] = row else {
        return Err("a pair has not a key and a value".into());
    };
    let value = match value.parse() {
        Ok(number) => Value::Number(number),
        Err(_) => Value::Text(value.to_string()),
    };
    Ok((key.to_string(), value))
}

impl Map {
    /// Reads the document of a kind from a folder. Half of the questions are for keys that it has, and the others for
    /// keys between those.
    pub fn read(folder: &Path, kind: &str, count: usize) -> Result<Self, Refusal> {
        let table = fs::read_to_string(folder.join(format!("{kind}.rows")))?;
        let pairs: Vec<(String, Value)> = rows(&table)
            .map(|row| pair_of(&row))
            .collect::<Result<_, _>>()?;
        let numbers: Vec<&String> = pairs
            .iter()
            .filter(|(_, value)| matches!(value, Value::Number(_)))
            .map(|(key, _)| key)
            .collect();
        let question = |(i, place): (usize, usize)| {
            let key = &pairs[place].0;
            if i % 2 == 0 {
                key.clone()
            } else {
                format!("{key}-")
            }
        };
        let edit = |(i, place): (usize, usize)| (numbers[place].clone(), i as i64);
        Ok(Map {
            text: fs::read_to_string(folder.join(format!("{kind}.text")))?,
            questions: places(count, pairs.len())
                .enumerate()
                .map(question)
                .collect(),
            edits: places(count, numbers.len()).enumerate().map(edit).collect(),
            pairs,
        })
    }

    fn found(&self, key: &String) -> Found {
        match self.pairs.binary_search_by(|(there, _)| there.cmp(key)) {
            Err(_) => Found::Missing,
            Ok(place) => match &self.pairs[place].1 {
                Value::Number(number) => Found::Number(*number),
                Value::Text(text) => Found::Text(text.clone()),
            },
        }
    }

    pub fn wanted(&self) -> Wanted {
        let edits: HashMap<&String, i64> = self
            .edits
            .iter()
            .map(|(key, number)| (key, *number))
            .collect();
        let after = |key| match edits.get(key) {
            Some(&number) => Found::Number(number),
            None => self.found(key),
        };
        Wanted {
            before: self.questions.iter().map(|key| self.found(key)).collect(),
            after: self.questions.iter().map(after).collect(),
        }
    }

    /// Returns the lines that request the same as the questions and the edits.
    pub fn lines(&self) -> (Vec<String>, Vec<String>) {
        let get = |key: &String| format!("get '{key}");
        let set = |(key, number): &(String, i64)| format!("set int {number} '{key}");
        (
            self.questions.iter().map(get).collect(),
            self.edits.iter().map(set).collect(),
        )
    }
}
