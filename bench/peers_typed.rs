//! Times archives of types that the program knows, without documents and lines: maps of texts to numbers of eight bytes,
//! in which texts are looked up, of which at least half are keys, and vectors of records, which are checked. They are
//! written, searched and checked by crates/archive_bench and by rkyv, and look-ups are made in Rust's own maps too.
//! Usage: peers_typed ENTRIES, for maps and vectors of 1,000 entries, and of more up to so many. All must find the same.
//! Prints a line for each figure; calls are made in turns, and the least processor time of all rounds counts.
//! crates/archive_bench makes the values that it writes first: the time of a call that writes none is subtracted.

#[allow(dead_code)]
mod heap;
#[allow(dead_code)]
mod library;
mod maps;
#[allow(dead_code)]
mod measured;
mod peers_figure;

/// The archived forms in plain Rust, which writes the archives that are searched and checked.
#[allow(dead_code)]
#[path = "plain_forms.rs"]
mod forms;
#[allow(dead_code)]
mod plain_btree;
#[allow(dead_code)]
mod plain_core;
#[allow(dead_code)]
mod plain_hash;
mod plain_probing;

use library::{ROUNDS, WRITES};
use maps::{QUERIES, SIZES, Texts, entries, queries};
use measured::mixed;
use peers_figure::{least_times_of, print_figure};
use plain_probing::FxHasher64;
use rkyv::AlignedVec;
use rkyv::util::archived_root;
use rkyv::validation::validators::check_archived_root;
use std::collections::{BTreeMap, HashMap};
use std::env;
use std::error::Error;
use std::hash::BuildHasherDefault;
use std::hint::black_box;

/// The scratch space with which rkyv begins.
const SCRATCH: usize = 1024;
/// The numbers of the own bytes of maps, which end their archives.
const TREE: usize = 8;
const TABLE: usize = 12;

type Tree = BTreeMap<String, u64>;
type Table = HashMap<String, u64>;
/// A map with the hash that archives of this project have.
type SameHash = HashMap<String, u64, BuildHasherDefault<FxHasher64>>;

/// The record of plain_core.rs for rkyv, whose check refuses its own tuples of texts.
#[derive(rkyv::Archive, rkyv::Serialize)]
#[archive_attr(derive(bytecheck::CheckBytes))]
struct Record {
    number: u64,
    name: String,
    odd: Option<u32>,
    tags: Vec<String>,
}

impl From<plain_core::Record> for Record {
    fn from(record: plain_core::Record) -> Self {
        Record {
            number: record.number,
            name: record.name,
            odd: record.odd,
            tags: record.tags,
        }
    }
}

/// The number of records that no vector exceeds.
const RECORDS: usize = 100_000;

type Finds =
    unsafe extern "C" fn(*const u8, usize, usize, *const u8, usize, *const usize, usize) -> u64;
type Writes = unsafe extern "C" fn(*const u32, usize, usize) -> usize;

// A slice is passed as a pointer and then a length. Nothing compares these declarations with the library's.
#[link(name = "archive_bench", kind = "static")]
unsafe extern "C" {
    fn archive_core_bench_access_records(bytes: *const u8, length: usize) -> bool;
    fn archive_core_bench_to_bytes_records(
        numbers: *const u32,
        count: usize,
        rounds: usize,
    ) -> usize;
    fn archive_btree_bench_write(numbers: *const u32, count: usize, rounds: usize) -> usize;
    fn archive_hash_bench_write_16(numbers: *const u32, count: usize, rounds: usize) -> usize;
    fn archive_btree_bench_sum_found(
        bytes: *const u8,
        length: usize,
        pos: usize,
        queries: *const u8,
        queries_length: usize,
        ends: *const usize,
        count: usize,
    ) -> u64;
    fn archive_hash_bench_sum_found_16(
        bytes: *const u8,
        length: usize,
        pos: usize,
        queries: *const u8,
        queries_length: usize,
        ends: *const usize,
        count: usize,
    ) -> u64;
}

/// What looks up all queries, and the look-ups.
type Ask<'a> = (&'a str, Box<dyn Fn() -> u64 + 'a>);

/// Prints the least times of look-ups that find the same.
fn compare_asks(document: &str, asks: &[Ask]) {
    let mut calls = Vec::new();
    for (peer, ask) in asks {
        assert_eq!(
            ask(),
            asks[0].1(),
            "{document}: {peer} finds something else"
        );
        calls.push(move || _ = black_box(ask()));
    }
    let times = least_times_of(ROUNDS, &mut calls);
    for ((peer, _), time) in asks.iter().zip(times) {
        print_figure(
            "typed",
            document,
            "question",
            peer,
            time / QUERIES as f64,
            "ns",
        );
    }
}

/// Returns the look-ups in the map that ends the bytes, whose own bytes are so many.
fn ours<'a>(bytes: &'a [u8], own: usize, queries: &'a Texts, finds: Finds) -> Ask<'a> {
    // SAFETY: the pointers and lengths are those of slices, and the bytes end with a map.
    let ask = move || unsafe {
        finds(
            black_box(bytes).as_ptr(),
            bytes.len(),
            bytes.len() - own,
            queries.text.as_ptr(),
            queries.text.len(),
            queries.ends.as_ptr(),
            queries.ends.len(),
        )
    };
    ("cabinet", Box::new(ask))
}

/// Compares the times of writing a map or a vector, for each of its entries.
fn compare_written(document: &str, numbers: &[u32], writes: Writes, rkyv: &dyn Fn() -> usize) {
    // SAFETY: the pointer and the length are those of a slice.
    let ours = |rounds| unsafe { writes(black_box(numbers).as_ptr(), numbers.len(), rounds) };
    let again = || (0..WRITES).map(|_| black_box(rkyv())).sum::<usize>();
    let rounds = if numbers.len() > 100_000 { 5 } else { ROUNDS };
    let mut calls: [&mut dyn FnMut(); 3] = [
        &mut || _ = black_box(ours(0)),
        &mut || _ = black_box(ours(WRITES)),
        &mut || _ = black_box(again()),
    ];
    let times = least_times_of(rounds, &mut calls);
    let each = (numbers.len() * WRITES) as f64;
    print_figure(
        "typed",
        document,
        "write",
        "cabinet",
        (times[1] - times[0]) / each,
        "ns",
    );
    print_figure("typed", document, "write", "rkyv", times[2] / each, "ns");
}

/// Returns the bytes of the map in rkyv.
fn bytes_of<M: rkyv::Serialize<rkyv::ser::serializers::AllocSerializer<SCRATCH>>>(
    map: &M,
) -> Result<AlignedVec, Box<dyn Error>> {
    rkyv::to_bytes::<M, SCRATCH>(map).map_err(|error| error.to_string().into())
}

/// Compares ordered maps.
fn compare_ordered(numbers: &[u32], queries: &Texts) -> Result<(), Box<dyn Error>> {
    let document = format!("ordered, {} entries", numbers.len());
    let tree: Tree = entries(numbers).collect();
    let bytes = plain_btree::write(&tree).map_err(|_| "the map is too long")?;
    let by_rkyv = bytes_of(&tree)?;
    // SAFETY: rkyv wrote the bytes.
    let archived = unsafe { archived_root::<Tree>(&by_rkyv) };
    let in_rkyv = || queries.sum(|query| black_box(archived).get(query).copied());
    let in_std = || queries.sum(|query| black_box(&tree).get(query).copied());
    let asks = [
        ours(&bytes, TREE, queries, archive_btree_bench_sum_found),
        ("rkyv", Box::new(in_rkyv) as _),
        ("std", Box::new(in_std) as _),
    ];
    compare_asks(&document, &asks);
    let write = || bytes_of(&tree).map_or(0, |bytes| bytes.len());
    compare_written(&document, numbers, archive_btree_bench_write, &write);
    Ok(())
}

/// Compares hashed maps.
fn compare_hashed(numbers: &[u32], queries: &Texts) -> Result<(), Box<dyn Error>> {
    let document = format!("hashed, {} entries", numbers.len());
    let table: Table = entries(numbers).collect();
    let same: SameHash = entries(numbers).collect();
    let bytes = plain_hash::write(same.len(), same.iter()).map_err(|_| "the map is too long")?;
    let by_rkyv = bytes_of(&table)?;
    // SAFETY: rkyv wrote the bytes.
    let archived = unsafe { archived_root::<Table>(&by_rkyv) };
    let in_rkyv = || queries.sum(|query| black_box(archived).get(query).copied());
    let in_std = || queries.sum(|query| black_box(&table).get(query).copied());
    let by_same = || queries.sum(|query| black_box(&same).get(query).copied());
    let asks = [
        ours(&bytes, TABLE, queries, archive_hash_bench_sum_found_16),
        ("rkyv", Box::new(in_rkyv) as _),
        ("std", Box::new(in_std) as _),
        ("std, same hash", Box::new(by_same) as _),
    ];
    compare_asks(&document, &asks);
    let write = || bytes_of(&table).map_or(0, |bytes| bytes.len());
    compare_written(&document, numbers, archive_hash_bench_write_16, &write);
    Ok(())
}

/// Compares vectors of records.
fn compare_records(numbers: &[u32]) -> Result<(), Box<dyn Error>> {
    let document = format!("records, {} entries", numbers.len());
    let records: Vec<Record> = plain_core::records(numbers)
        .into_iter()
        .map(Record::from)
        .collect();
    let bytes = plain_core::archived_records(numbers);
    let by_rkyv = bytes_of(&records)?;
    // SAFETY: the pointer and the length are those of a slice.
    let ours =
        || unsafe { archive_core_bench_access_records(black_box(&bytes).as_ptr(), bytes.len()) };
    let rkyv = || check_archived_root::<Vec<Record>>(black_box(&by_rkyv)).is_ok();
    assert!(ours() && rkyv(), "{document}: not accepted");
    let mut calls: [&mut dyn FnMut(); 2] =
        [&mut || _ = black_box(ours()), &mut || _ = black_box(rkyv())];
    let times = least_times_of(ROUNDS, &mut calls);
    for (peer, time) in ["cabinet", "rkyv"].into_iter().zip(times) {
        print_figure(
            "typed",
            &document,
            "open",
            peer,
            time / numbers.len() as f64,
            "ns",
        );
    }
    let write = || bytes_of(&records).map_or(0, |bytes| bytes.len());
    compare_written(
        &document,
        numbers,
        archive_core_bench_to_bytes_records,
        &write,
    );
    Ok(())
}

fn main() -> Result<(), Box<dyn Error>> {
    let most = env::args().nth(1).ok_or("usage: peers_typed ENTRIES")?;
    let most: usize = most.parse()?;
    let sizes = SIZES.into_iter();
    for count in sizes.filter(|&count| count <= most.max(SIZES[0])) {
        let numbers: Vec<u32> = mixed(count).collect();
        let queries = queries(&numbers);
        compare_ordered(&numbers, &queries)?;
        compare_hashed(&numbers, &queries)?;
        if count <= RECORDS {
            compare_records(&numbers)?;
        }
    }
    Ok(())
}
