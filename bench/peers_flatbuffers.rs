//! The documents of peers.rs in FlatBuffers, by the calls of peers_flatbuffers.cpp: a vector of records, or a vector of
//! pairs that is sorted by their keys, which is searched by halves. FlatBuffers has no hashed map and no map that keeps
//! its order.

use crate::peers_document::{FieldOf, Found, Map, Peer, Record, Records, Refusal, ScoreOf, Value};
use std::ffi::{CString, c_char};
use std::{ptr, slice};

/// A text of C++, or none where the pointer is null.
#[derive(Clone, Copy)]
#[repr(C)]
struct TextOf {
    bytes: *const u8,
    length: usize,
}

const NONE: TextOf = TextOf {
    bytes: ptr::null(),
    length: 0,
};

#[derive(Clone, Copy)]
#[repr(C)]
struct ValueOf {
    number: i64,
    text: TextOf,
}

#[repr(C)]
struct PairOf {
    key: TextOf,
    value: ValueOf,
}

#[repr(C)]
struct RecordOf {
    active: bool,
    id: i64,
    mail: TextOf,
    name: TextOf,
    score: i64,
}

#[repr(C)]
struct NumberOf {
    key: *const c_char,
    number: i64,
}

#[repr(C)]
struct FoundOf {
    kind: u32,
    value: ValueOf,
}

/// Bytes that C++ built.
#[repr(C)]
struct Built {
    _bytes: [u8; 0],
}

// Nothing compares these declarations with the definitions.
unsafe extern "C" {
    fn peers_flatbuffers_build_pairs(pairs: *const PairOf, count: usize) -> *mut Built;
    fn peers_flatbuffers_build_records(records: *const RecordOf, count: usize) -> *mut Built;
    fn peers_flatbuffers_length(built: *const Built) -> usize;
    fn peers_flatbuffers_free(built: *mut Built);
    fn peers_flatbuffers_check(built: *const Built) -> bool;
    fn peers_flatbuffers_value(built: *const Built, key: *const c_char) -> FoundOf;
    fn peers_flatbuffers_sum_values(
        built: *const Built,
        keys: *const *const c_char,
        count: usize,
    ) -> u64;
    fn peers_flatbuffers_edit_values(
        built: *mut Built,
        edits: *const NumberOf,
        count: usize,
    ) -> usize;
    fn peers_flatbuffers_field(built: *const Built, of: FieldOf) -> FoundOf;
    fn peers_flatbuffers_sum_fields(
        built: *const Built,
        fields: *const FieldOf,
        count: usize,
    ) -> u64;
    fn peers_flatbuffers_edit_scores(
        built: *mut Built,
        edits: *const ScoreOf,
        count: usize,
    ) -> usize;
}

impl TextOf {
    fn new(text: &str) -> Self {
        TextOf {
            bytes: text.as_ptr(),
            length: text.len(),
        }
    }
}

impl FoundOf {
    /// Returns the line that answers a question so, without its end.
    fn head(&self) -> Result<String, Refusal> {
        let ValueOf { number, text } = self.value;
        let found = match self.kind {
            0 => Found::Missing,
            1 => Found::Bool(number != 0),
            2 => Found::Number(number),
            _ => {
                // SAFETY: the bytes are those of a text that was built.
                let bytes = unsafe { slice::from_raw_parts(text.bytes, text.length) };
                Found::Text(str::from_utf8(bytes)?.to_string())
            }
        };
        Ok(found.head())
    }
}

/// Bytes that are freed with this.
struct Owned(*mut Built);

impl Owned {
    /// Replaces the bytes, and returns the number of the new ones.
    fn replace(&mut self, built: *mut Built) -> usize {
        *self = Owned(built);
        // SAFETY: C++ has built these bytes.
        unsafe { peers_flatbuffers_length(self.0) }
    }

    fn check(&self) -> bool {
        // SAFETY: C++ has built these bytes.
        unsafe { peers_flatbuffers_check(self.0) }
    }
}

impl Drop for Owned {
    fn drop(&mut self) {
        // SAFETY: C++ has built these bytes, or the pointer is null, for which it does nothing.
        unsafe { peers_flatbuffers_free(self.0) }
    }
}

// ---- maps

struct MapPeer<'a> {
    pairs: Vec<PairOf>,
    questions: Vec<*const c_char>,
    edits: Vec<NumberOf>,
    built: Owned,
    /// The keys of questions and edits, as C has them.
    _keys: Vec<CString>,
    _document: &'a Map,
}

fn pair_of((key, value): &(String, Value)) -> PairOf {
    let value = match value {
        Value::Number(number) => ValueOf {
            number: *number,
            text: NONE,
        },
        Value::Text(text) => ValueOf {
            number: 0,
            text: TextOf::new(text),
        },
    };
    PairOf {
        key: TextOf::new(key),
        value,
    }
}

/// Returns the peer of a map, which must be ordered.
pub fn of_map<'a>(document: &'a Map) -> Result<Box<dyn Peer + 'a>, Refusal> {
    let edited = document.edits.iter().map(|(key, _)| key);
    let keys = document.questions.iter().chain(edited);
    let keys: Vec<CString> = keys
        .map(|key| CString::new(key.as_str()))
        .collect::<Result<_, _>>()?;
    let (questions, edited) = keys.split_at(document.questions.len());
    let edit = |(key, (_, number)): (&CString, &(String, i64))| NumberOf {
        key: key.as_ptr(),
        number: *number,
    };
    Ok(Box::new(MapPeer {
        pairs: document.pairs.iter().map(pair_of).collect(),
        questions: questions.iter().map(|key| key.as_ptr()).collect(),
        edits: edited.iter().zip(&document.edits).map(edit).collect(),
        built: Owned(ptr::null_mut()),
        _keys: keys,
        _document: document,
    }))
}

impl Peer for MapPeer<'_> {
    fn name(&self) -> &'static str {
        "FlatBuffers"
    }

    fn build(&mut self) -> Result<usize, Refusal> {
        // SAFETY: the pairs point into the document.
        let built = unsafe { peers_flatbuffers_build_pairs(self.pairs.as_ptr(), self.pairs.len()) };
        Ok(self.built.replace(built))
    }

    fn check(&mut self) -> Option<bool> {
        Some(self.built.check())
    }

    fn head(&mut self, question: usize) -> Result<String, Refusal> {
        // SAFETY: the map is built, and the key is one of C.
        unsafe { peers_flatbuffers_value(self.built.0, self.questions[question]) }.head()
    }

    fn sum(&mut self) -> u64 {
        let keys = &self.questions;
        // SAFETY: as in `head`.
        unsafe { peers_flatbuffers_sum_values(self.built.0, keys.as_ptr(), keys.len()) }
    }

    fn edit(&mut self) -> Option<usize> {
        let edits = &self.edits;
        // SAFETY: as in `head`.
        Some(unsafe { peers_flatbuffers_edit_values(self.built.0, edits.as_ptr(), edits.len()) })
    }
}

// ---- records

struct RecordsPeer<'a> {
    document: &'a Records,
    records: Vec<RecordOf>,
    built: Owned,
}

/// Returns the peer of records.
pub fn of_records<'a>(document: &'a Records) -> Box<dyn Peer + 'a> {
    let record = |record: &Record| RecordOf {
        active: record.active,
        id: record.id,
        mail: TextOf::new(&record.mail),
        name: TextOf::new(&record.name),
        score: record.score,
    };
    Box::new(RecordsPeer {
        document,
        records: document.records.iter().map(record).collect(),
        built: Owned(ptr::null_mut()),
    })
}

impl Peer for RecordsPeer<'_> {
    fn name(&self) -> &'static str {
        "FlatBuffers"
    }

    fn build(&mut self) -> Result<usize, Refusal> {
        let records = &self.records;
        // SAFETY: the records point into the document.
        let built = unsafe { peers_flatbuffers_build_records(records.as_ptr(), records.len()) };
        Ok(self.built.replace(built))
    }

    fn check(&mut self) -> Option<bool> {
        Some(self.built.check())
    }

    fn head(&mut self, question: usize) -> Result<String, Refusal> {
        // SAFETY: the records are built, and the question is for one of them.
        unsafe { peers_flatbuffers_field(self.built.0, self.document.questions[question]) }.head()
    }

    fn sum(&mut self) -> u64 {
        let fields = &self.document.questions;
        // SAFETY: as in `head`.
        unsafe { peers_flatbuffers_sum_fields(self.built.0, fields.as_ptr(), fields.len()) }
    }

    fn edit(&mut self) -> Option<usize> {
        let edits = &self.document.edits;
        // SAFETY: as in `head`.
        Some(unsafe { peers_flatbuffers_edit_scores(self.built.0, edits.as_ptr(), edits.len()) })
    }
}
