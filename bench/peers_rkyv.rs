//! The documents of peers.rs in archives of rkyv: records in a vector, and maps in a `BTreeMap`, a `HashMap` and an
//! `IndexMap`. rkyv lends values of archived vectors and of hashed maps for edits in place, and none of the other maps.

use crate::peers_document::{
    ArchivedRecord, ArchivedValue, Field, FieldOf, Found, Map, Peer, Record, Records, Refusal,
    Value,
};
use bytecheck::CheckBytes;
use indexmap::IndexMap;
use rkyv::collections::{ArchivedBTreeMap, ArchivedHashMap, ArchivedIndexMap};
use rkyv::ser::serializers::AllocSerializer;
use rkyv::string::ArchivedString;
use rkyv::util::{archived_root, archived_root_mut};
use rkyv::validation::validators::{DefaultValidator, check_archived_root};
use rkyv::{AlignedVec, Archive, Archived, Serialize};
use std::collections::{BTreeMap, HashMap};
use std::pin::Pin;

/// The bytes of scratch space that a serializer begins with.
const SCRATCH: usize = 1024;

type Serializer = AllocSerializer<SCRATCH>;

fn bytes_of<T: Serialize<Serializer>>(value: &T) -> Result<AlignedVec, Refusal> {
    rkyv::to_bytes::<T, SCRATCH>(value).map_err(|error| error.to_string().into())
}

/// Returns the sum of numbers and of lengths of texts.
fn sum_of(value: &ArchivedValue) -> u64 {
    match value {
        ArchivedValue::Number(number) => *number as u64,
        ArchivedValue::Text(text) => text.len() as u64,
    }
}

/// Puts a number in the place of a number.
fn put(value: Pin<&mut ArchivedValue>, number: i64) -> bool {
    // SAFETY: a text, which points to its bytes, is not moved, and a number may be.
    match unsafe { value.get_unchecked_mut() } {
        ArchivedValue::Number(there) => {
            *there = number;
            true
        }
        ArchivedValue::Text(_) => false,
    }
}

// ---- maps

/// An archived map of values.
pub trait Searched {
    fn found(&self, key: &str) -> Option<&ArchivedValue>;

    /// Does edits in place, and returns how many were done, or nothing where the map lends no value for an edit.
    fn edit(self: Pin<&mut Self>, _edits: &[(String, i64)]) -> Option<usize> {
        None
    }
}

impl Searched for ArchivedBTreeMap<ArchivedString, ArchivedValue> {
    fn found(&self, key: &str) -> Option<&ArchivedValue> {
        self.get(key)
    }
}

impl Searched for ArchivedIndexMap<ArchivedString, ArchivedValue> {
    fn found(&self, key: &str) -> Option<&ArchivedValue> {
        self.get(key)
    }
}

impl Searched for ArchivedHashMap<ArchivedString, ArchivedValue> {
    fn found(&self, key: &str) -> Option<&ArchivedValue> {
        self.get(key)
    }

    fn edit(mut self: Pin<&mut Self>, edits: &[(String, i64)]) -> Option<usize> {
        let mut done = 0;
        for (key, number) in edits {
            if let Some(value) = self.as_mut().get_pin(key.as_str()) {
                done += usize::from(put(value, *number));
            }
        }
        Some(done)
    }
}

struct MapPeer<'a, M> {
    document: &'a Map,
    map: M,
    bytes: AlignedVec,
}

impl<M: Archive> MapPeer<'_, M> {
    fn root(&self) -> &M::Archived {
        // SAFETY: `build` wrote the bytes, and only numbers in them have been changed since.
        unsafe { archived_root::<M>(&self.bytes) }
    }
}

impl<M> Peer for MapPeer<'_, M>
where
    M: Serialize<Serializer>,
    M::Archived: Searched + for<'a> CheckBytes<DefaultValidator<'a>>,
{
    fn name(&self) -> &'static str {
        "rkyv"
    }

    fn build(&mut self) -> Result<usize, Refusal> {
        self.bytes = bytes_of(&self.map)?;
        Ok(self.bytes.len())
    }

    fn check(&mut self) -> Option<bool> {
        Some(check_archived_root::<M>(&self.bytes).is_ok())
    }

    fn head(&mut self, question: usize) -> Result<String, Refusal> {
        let found = match self.root().found(&self.document.questions[question]) {
            None => Found::Missing,
            Some(ArchivedValue::Number(number)) => Found::Number(*number),
            Some(ArchivedValue::Text(text)) => Found::Text(text.to_string()),
        };
        Ok(found.head())
    }

    fn sum(&mut self) -> u64 {
        let map = self.root();
        let found = |key: &String| map.found(key).map_or(0, sum_of);
        self.document
            .questions
            .iter()
            .map(found)
            .fold(0, u64::wrapping_add)
    }

    fn edit(&mut self) -> Option<usize> {
        // SAFETY: as in `root`.
        let map = unsafe { archived_root_mut::<M>(Pin::new(&mut self.bytes)) };
        map.edit(&self.document.edits)
    }
}

/// Returns the peer of a map of the kind.
pub fn of_map<'a>(document: &'a Map, kind: &str) -> Box<dyn Peer + 'a> {
    let pairs = document.pairs.iter().cloned();
    match kind {
        "ordered" => of::<BTreeMap<String, Value>>(document, pairs.collect()),
        "hashed" => of::<HashMap<String, Value>>(document, pairs.collect()),
        _ => of::<IndexMap<String, Value>>(document, pairs.collect()),
    }
}

fn of<'a, M>(document: &'a Map, map: M) -> Box<dyn Peer + 'a>
where
    M: Serialize<Serializer> + 'a,
    M::Archived: Searched + for<'b> CheckBytes<DefaultValidator<'b>>,
{
    Box::new(MapPeer {
        document,
        map,
        bytes: AlignedVec::new(),
    })
}

// ---- records

struct RecordsPeer<'a> {
    document: &'a Records,
    bytes: AlignedVec,
}

/// The peer of records.
pub fn of_records<'a>(document: &'a Records) -> Box<dyn Peer + 'a> {
    Box::new(RecordsPeer {
        document,
        bytes: AlignedVec::new(),
    })
}

/// Returns what is summed of a field.
fn sum_of_field(record: &ArchivedRecord, field: Field) -> u64 {
    let length = |text: &ArchivedString| text.len() as u64;
    match field {
        Field::Active => record.active.into(),
        Field::Id => record.id as u64,
        Field::Mail => length(&record.mail),
        Field::Name => length(&record.name),
        Field::Score => record.score as u64,
    }
}

impl RecordsPeer<'_> {
    fn root(&self) -> &Archived<Vec<Record>> {
        // SAFETY: `build` wrote the bytes, and only numbers in them have been changed since.
        unsafe { archived_root::<Vec<Record>>(&self.bytes) }
    }
}

impl Peer for RecordsPeer<'_> {
    fn name(&self) -> &'static str {
        "rkyv"
    }

    fn build(&mut self) -> Result<usize, Refusal> {
        self.bytes = bytes_of(&self.document.records)?;
        Ok(self.bytes.len())
    }

    fn check(&mut self) -> Option<bool> {
        Some(check_archived_root::<Vec<Record>>(&self.bytes).is_ok())
    }

    fn head(&mut self, question: usize) -> Result<String, Refusal> {
        let of = self.document.questions[question];
        let record = &self.root()[of.record];
        let found = match of.field {
            Field::Active => Found::Bool(record.active),
            Field::Id => Found::Number(record.id),
            Field::Mail => Found::Text(record.mail.to_string()),
            Field::Name => Found::Text(record.name.to_string()),
            Field::Score => Found::Number(record.score),
        };
        Ok(found.head())
    }

    fn sum(&mut self) -> u64 {
        let records = self.root();
        let found = |of: &FieldOf| sum_of_field(&records[of.record], of.field);
        self.document
            .questions
            .iter()
            .map(found)
            .fold(0, u64::wrapping_add)
    }

    fn edit(&mut self) -> Option<usize> {
        // SAFETY: as in `root`.
        let mut records = unsafe { archived_root_mut::<Vec<Record>>(Pin::new(&mut self.bytes)) };
        for edit in &self.document.edits {
            let record = records.as_mut().index_pin(edit.record);
            // SAFETY: the record is not moved out of its place; a number of it may be changed.
            unsafe { record.get_unchecked_mut().score = edit.score };
        }
        Some(self.document.edits.len())
    }
}
