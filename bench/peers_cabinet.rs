//! The documents of peers.rs in archives of this project, by the calls of cabinet.h. Building reads the document's text,
//! a question is a line that is read, and its answer a line that is spelled.

use crate::peers_document::{Map, Peer, Records, Refusal};
use std::ffi::c_int;

const OK: c_int = 0;

/// The greatest number of bytes that an answer has here.
const ANSWER: usize = 1 << 10;

// Nothing compares these declarations with those of cabinet.h.
unsafe extern "C" {
    fn cabinet_check(archive: *const u8, length: usize) -> c_int;
    fn cabinet_ask(
        archive: *mut u8,
        length: usize,
        line: *const u8,
        line_length: usize,
        answer: *mut u8,
        capacity: usize,
        written: *mut usize,
    ) -> c_int;
    fn cabinet_set(archive: *mut u8, length: usize, line: *const u8, line_length: usize) -> c_int;
    fn cabinet_build(
        text: *const u8,
        length: usize,
        archive: *mut u8,
        capacity: usize,
        written: *mut usize,
        line: *mut usize,
    ) -> c_int;
}

struct Archive<'a> {
    text: &'a str,
    questions: Vec<String>,
    edits: Vec<String>,
    /// The archive, and after it room for a longer one.
    bytes: Vec<u8>,
    length: usize,
    answer: [u8; ANSWER],
}

impl Archive<'_> {
    /// Answers a question, and returns the length of the answer, or 0 where there is none.
    fn ask(&mut self, question: usize) -> usize {
        let line = &self.questions[question];
        let mut written = 0;
        // SAFETY: each pointer and length is that of bytes of their own, and the archive was built.
        unsafe {
            cabinet_ask(
                self.bytes.as_mut_ptr(),
                self.length,
                line.as_ptr(),
                line.len(),
                self.answer.as_mut_ptr(),
                ANSWER,
                &mut written,
            )
        };
        written
    }
}

impl Peer for Archive<'_> {
    fn name(&self) -> &'static str {
        "cabinet"
    }

    fn build(&mut self) -> Result<usize, Refusal> {
        let mut line = 0;
        // SAFETY: each pointer and length is that of bytes of their own.
        let told = unsafe {
            cabinet_build(
                self.text.as_ptr(),
                self.text.len(),
                self.bytes.as_mut_ptr(),
                self.bytes.len(),
                &mut self.length,
                &mut line,
            )
        };
        if told != OK {
            return Err(format!("cabinet_build: status {told} in line {line}").into());
        }
        Ok(self.length)
    }

    fn check(&mut self) -> Option<bool> {
        // SAFETY: the archive has as many bytes.
        Some(unsafe { cabinet_check(self.bytes.as_ptr(), self.length) } == OK)
    }

    fn head(&mut self, question: usize) -> Result<String, Refusal> {
        let written = self.ask(question);
        let answer = str::from_utf8(&self.answer[..written])?;
        Ok(answer.strip_suffix('\n').ok_or("not a line")?.to_string())
    }

    fn sum(&mut self) -> u64 {
        (0..self.questions.len())
            .map(|question| self.ask(question) as u64)
            .sum()
    }

    fn is_spelling(&self) -> bool {
        true
    }

    fn edit(&mut self) -> Option<usize> {
        let mut done = 0;
        for line in &self.edits {
            let (line, line_length) = (line.as_ptr(), line.len());
            // SAFETY: each pointer and length is that of bytes of their own, and the archive was built.
            let told =
                unsafe { cabinet_set(self.bytes.as_mut_ptr(), self.length, line, line_length) };
            done += usize::from(told == OK);
        }
        Some(done)
    }
}

fn of<'a>(text: &'a str, (questions, edits): (Vec<String>, Vec<String>)) -> Box<dyn Peer + 'a> {
    // A node takes 24 bytes, of a pair about 64 with its key and its place, and a text no more than its line.
    let room = text.len() + 64 * text.lines().count() + 4096;
    Box::new(Archive {
        text,
        questions,
        edits,
        bytes: vec![0; room],
        length: 0,
        answer: [0; ANSWER],
    })
}

/// Returns the peer of records.
pub fn of_records<'a>(document: &'a Records) -> Box<dyn Peer + 'a> {
    of(&document.text, document.lines())
}

/// Returns the peer of a map.
pub fn of_map<'a>(document: &'a Map) -> Box<dyn Peer + 'a> {
    of(&document.text, document.lines())
}
