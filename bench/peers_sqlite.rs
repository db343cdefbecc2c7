//! The documents of peers.rs in tables of SQLite, in a database in memory, by prepared statements: records in a table
//! with a column for each field, and a map in a table of keys and values. The table of a kept map has its rows in the
//! order of the document, and an index of the keys; the other maps have no rows beside the tree that has the keys.

use crate::peers_document::{Field, Found, Map, Peer, Record, Records, Refusal, Value};
use std::ffi::{CStr, CString, c_char, c_int, c_void};
use std::{ptr, slice};

/// The numbers by which SQLite tells what a call did and what a column has.
const OK: c_int = 0;
const ROW: c_int = 100;
const DONE: c_int = 101;
const INTEGER: c_int = 1;

/// Says that the bytes of a text stay as they are while the statement has them.
const STATIC: *const c_void = ptr::null();

// Nothing compares these declarations with those of SQLite.
#[link(name = "sqlite3")]
unsafe extern "C" {
    fn sqlite3_open(name: *const c_char, database: *mut *mut c_void) -> c_int;
    fn sqlite3_close(database: *mut c_void) -> c_int;
    fn sqlite3_errmsg(database: *mut c_void) -> *const c_char;
    fn sqlite3_total_changes(database: *mut c_void) -> c_int;
    fn sqlite3_prepare_v2(
        database: *mut c_void,
        sql: *const c_char,
        length: c_int,
        statement: *mut *mut c_void,
        rest: *mut *const c_char,
    ) -> c_int;
    fn sqlite3_bind_int64(statement: *mut c_void, place: c_int, number: i64) -> c_int;
    fn sqlite3_bind_text(
        statement: *mut c_void,
        place: c_int,
        text: *const u8,
        length: c_int,
        free: *const c_void,
    ) -> c_int;
    fn sqlite3_step(statement: *mut c_void) -> c_int;
    fn sqlite3_reset(statement: *mut c_void) -> c_int;
    fn sqlite3_finalize(statement: *mut c_void) -> c_int;
    fn sqlite3_column_type(statement: *mut c_void, column: c_int) -> c_int;
    fn sqlite3_column_int64(statement: *mut c_void, column: c_int) -> i64;
    fn sqlite3_column_text(statement: *mut c_void, column: c_int) -> *const u8;
    fn sqlite3_column_bytes(statement: *mut c_void, column: c_int) -> c_int;
}

// ---- calls

/// A database in memory.
struct Database(*mut c_void);

impl Database {
    fn open() -> Result<Self, Refusal> {
        let mut database = Database(ptr::null_mut());
        // SAFETY: the name is one of C, and the place for the database is there.
        let told = unsafe { sqlite3_open(c":memory:".as_ptr(), &mut database.0) };
        database.said(told == OK).map(|()| database)
    }

    /// Returns what SQLite says of a fault.
    fn said(&self, is_done: bool) -> Result<(), Refusal> {
        if is_done {
            return Ok(());
        }
        // SAFETY: the database is open, and what it says is a text of C.
        let said = unsafe { CStr::from_ptr(sqlite3_errmsg(self.0)) };
        Err(format!("SQLite: {}", said.to_string_lossy()).into())
    }

    fn prepare(&self, sql: &str) -> Result<Statement, Refusal> {
        let sql = CString::new(sql)?;
        let mut statement = Statement(ptr::null_mut());
        let rest = ptr::null_mut();
        // SAFETY: the database is open, the text is one of C, and the place for the statement is there.
        let told = unsafe { sqlite3_prepare_v2(self.0, sql.as_ptr(), -1, &mut statement.0, rest) };
        self.said(told == OK).map(|()| statement)
    }

    /// Runs a statement that has no rows.
    fn run(&self, sql: &str) -> Result<(), Refusal> {
        self.said(self.prepare(sql)?.step() == DONE)
    }

    /// Returns the number that a statement has in its one row.
    fn number(&self, sql: &str) -> Result<i64, Refusal> {
        let statement = self.prepare(sql)?;
        self.said(statement.step() == ROW)?;
        Ok(statement.number())
    }

    fn changes(&self) -> c_int {
        // SAFETY: the database is open.
        unsafe { sqlite3_total_changes(self.0) }
    }
}

impl Drop for Database {
    fn drop(&mut self) {
        // SAFETY: the database is open, and its statements were dropped before it.
        unsafe { sqlite3_close(self.0) };
    }
}

/// A statement whose database is open.
struct Statement(*mut c_void);

/// What is put in the place of a question mark.
#[derive(Clone, Copy)]
enum Bound<'a> {
    Number(i64),
    Text(&'a str),
}

// SAFETY, of all calls here: the database is open, and a text that is bound is there until another one is.
impl Statement {
    /// Puts values in the places of the question marks, in order.
    fn bind(&self, values: &[Bound]) {
        for (value, place) in values.iter().zip(1..) {
            match value {
                Bound::Number(number) => unsafe { sqlite3_bind_int64(self.0, place, *number) },
                Bound::Text(text) => unsafe {
                    sqlite3_bind_text(self.0, place, text.as_ptr(), text.len() as c_int, STATIC)
                },
            };
        }
    }

    fn step(&self) -> c_int {
        unsafe { sqlite3_step(self.0) }
    }

    fn reset(&self) {
        unsafe { sqlite3_reset(self.0) };
    }

    /// Runs a statement that has no rows.
    fn run(&self, values: &[Bound]) -> bool {
        self.bind(values);
        let told = self.step();
        self.reset();
        told == DONE
    }

    fn is_number(&self) -> bool {
        unsafe { sqlite3_column_type(self.0, 0) == INTEGER }
    }

    fn number(&self) -> i64 {
        unsafe { sqlite3_column_int64(self.0, 0) }
    }

    fn length(&self) -> usize {
        unsafe { sqlite3_column_bytes(self.0, 0) as usize }
    }

    fn text(&self) -> Result<String, Refusal> {
        let bytes = unsafe { slice::from_raw_parts(sqlite3_column_text(self.0, 0), self.length()) };
        Ok(str::from_utf8(bytes)?.to_string())
    }

    fn found(&self, value: Bound) -> Result<Found, Refusal> {
        self.bind(&[value]);
        let found = match self.step() {
            ROW if self.is_number() => Found::Number(self.number()),
            ROW => Found::Text(self.text()?),
            _ => Found::Missing,
        };
        self.reset();
        Ok(found)
    }

    /// Returns the number or the length of the text that is found, or 0.
    fn sum(&self, value: Bound) -> u64 {
        self.bind(&[value]);
        let sum = match self.step() {
            ROW if self.is_number() => self.number() as u64,
            ROW => self.length() as u64,
            _ => 0,
        };
        self.reset();
        sum
    }
}

impl Drop for Statement {
    fn drop(&mut self) {
        // SAFETY: the database is open, or the pointer is null, for which nothing is done.
        unsafe { sqlite3_finalize(self.0) };
    }
}

// ---- documents

enum Rows<'a> {
    Records(&'a [Record]),
    Pairs(&'a [(String, Value)]),
}

/// The statements that make a table, fill it, ask, and edit.
struct Texts {
    table: &'static str,
    insert: &'static str,
    selects: Vec<String>,
    update: &'static str,
}

/// A database with the statements that ask and edit, which are dropped before it.
struct Built {
    selects: Vec<Statement>,
    update: Statement,
    database: Database,
}

struct Tabled<'a> {
    texts: Texts,
    rows: Rows<'a>,
    /// The number of a statement, and the record's number or the key.
    questions: Vec<(usize, Bound<'a>)>,
    /// The new number, and the record's number or the key.
    edits: Vec<[Bound<'a>; 2]>,
    built: Option<Built>,
}

/// Returns the peer of records.
pub fn of_records<'a>(document: &'a Records) -> Box<dyn Peer + 'a> {
    let select = |field: Field| format!("select {} from records where place = ?", field.name());
    let place = |record: usize| Bound::Number(record as i64);
    let questions = document.questions.iter();
    let edits = document.edits.iter();
    Box::new(Tabled {
        texts: Texts {
            table: "create table records (place integer primary key, active integer, id integer,
                mail text, name text, score integer)",
            insert: "insert into records values (?, ?, ?, ?, ?, ?)",
            selects: Field::ALL.map(select).to_vec(),
            update: "update records set score = ? where place = ?",
        },
        rows: Rows::Records(&document.records),
        questions: questions
            .map(|of| (of.field as usize, place(of.record)))
            .collect(),
        edits: edits
            .map(|of| [Bound::Number(of.score), place(of.record)])
            .collect(),
        built: None,
    })
}

/// Returns the peer of a map of the kind.
pub fn of_map<'a>(document: &'a Map, kind: &str) -> Box<dyn Peer + 'a> {
    let edit = |(key, number): &'a (String, i64)| [Bound::Number(*number), Bound::Text(key)];
    Box::new(Tabled {
        texts: Texts {
            table: if kind == "kept" {
                "create table leaves (key text primary key, value)"
            } else {
                "create table leaves (key text primary key, value) without rowid"
            },
            insert: "insert into leaves values (?, ?)",
            selects: vec!["select value from leaves where key = ?".to_string()],
            update: "update leaves set value = ? where key = ?",
        },
        rows: Rows::Pairs(&document.pairs),
        questions: document
            .questions
            .iter()
            .map(|key| (0, Bound::Text(key)))
            .collect(),
        edits: document.edits.iter().map(edit).collect(),
        built: None,
    })
}

/// Fills a table. The rows are of this document, so each insertion is done.
fn fill(rows: &Rows, insert: &Statement) -> bool {
    let pair = |(key, value): &(String, Value)| {
        let value = match value {
            Value::Number(number) => Bound::Number(*number),
            Value::Text(text) => Bound::Text(text),
        };
        insert.run(&[Bound::Text(key), value])
    };
    let record = |(record, place): (&Record, i64)| {
        insert.run(&[
            Bound::Number(place),
            Bound::Number(record.active.into()),
            Bound::Number(record.id),
            Bound::Text(&record.mail),
            Bound::Text(&record.name),
            Bound::Number(record.score),
        ])
    };
    match rows {
        Rows::Pairs(pairs) => pairs.iter().all(pair),
        Rows::Records(records) => records.iter().zip(0..).all(record),
    }
}

impl Tabled<'_> {
    /// Returns what was built.
    fn built(&self) -> Result<&Built, Refusal> {
        self.built.as_ref().ok_or_else(|| "not built".into())
    }
}

impl Peer for Tabled<'_> {
    fn name(&self) -> &'static str {
        "SQLite"
    }

    fn build(&mut self) -> Result<usize, Refusal> {
        let database = Database::open()?;
        database.run(self.texts.table)?;
        database.run("begin")?;
        let insert = database.prepare(self.texts.insert)?;
        database.said(fill(&self.rows, &insert))?;
        database.run("commit")?;
        let selects = self.texts.selects.iter();
        let built = Built {
            selects: selects
                .map(|sql| database.prepare(sql))
                .collect::<Result<_, _>>()?,
            update: database.prepare(self.texts.update)?,
            database,
        };
        let pages = "select page_count * page_size from pragma_page_count, pragma_page_size";
        let length = built.database.number(pages)?;
        drop(insert);
        self.built = Some(built);
        Ok(length as usize)
    }

    fn check(&mut self) -> Option<bool> {
        None
    }

    fn head(&mut self, question: usize) -> Result<String, Refusal> {
        let (statement, value) = self.questions[question];
        let found = self.built()?.selects[statement].found(value)?;
        Ok(match (&self.rows, found) {
            (Rows::Records(_), Found::Number(active)) if statement == Field::Active as usize => {
                Found::Bool(active != 0).head()
            }
            (_, found) => found.head(),
        })
    }

    fn sum(&mut self) -> u64 {
        let Some(built) = &self.built else { return 0 };
        let found = |(statement, value): &(usize, Bound)| built.selects[*statement].sum(*value);
        self.questions.iter().map(found).fold(0, u64::wrapping_add)
    }

    fn edit(&mut self) -> Option<usize> {
        let built = self.built.as_ref()?;
        let before = built.database.changes();
        built.database.run("begin").ok()?;
        for edit in &self.edits {
            built.update.run(edit);
        }
        built.database.run("commit").ok()?;
        Some((built.database.changes() - before) as usize)
    }
}
