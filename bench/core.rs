//! Times whole archives that crates/archive_bench writes and accesses beside the same work in Rust: of a vector of
//! options, one of texts, one of vectors and one of records, and of each record alone. Both are called in turns, and
//! the least processor time of all rounds counts. A call that writes makes the values first: the time of a call that
//! writes none is subtracted. Rust writes own bytes in place, in the vector that grows, and also in pieces, as the
//! library does.

mod heap;
mod library;
mod measured;

/// The archived forms and whole archives in plain Rust.
#[allow(dead_code)]
#[path = "plain_forms.rs"]
mod forms;
#[path = "plain_core.rs"]
mod rust;

use library::{compare_writes, least_times, lengths};
use measured::{greatest, mixed, report};
use rust::Record;
use std::hint::black_box;

const OPTIONS: usize = 1_000_000;
const TEXTS: usize = 100_000;
const LISTS: usize = 100_000;
const RECORDS: usize = 100_000;

// A slice is passed as a pointer and then a length. Nothing compares these declarations with the library's.
#[link(name = "archive_bench", kind = "static")]
unsafe extern "C" {
    fn archive_core_bench_access_options(bytes: *const u8, length: usize) -> bool;
    fn archive_core_bench_access_texts(bytes: *const u8, length: usize) -> bool;
    fn archive_core_bench_access_lists(bytes: *const u8, length: usize) -> bool;
    fn archive_core_bench_access_records(bytes: *const u8, length: usize) -> bool;
    fn archive_core_bench_access_each_record(
        bytes: *const u8,
        length: usize,
        ends: *const usize,
        count: usize,
    ) -> usize;
    fn archive_core_bench_to_bytes_options(
        numbers: *const u32,
        count: usize,
        rounds: usize,
    ) -> usize;
    fn archive_core_bench_to_bytes_texts(lengths: *const u32, count: usize, rounds: usize)
    -> usize;
    fn archive_core_bench_to_bytes_lists(numbers: *const u32, count: usize, rounds: usize)
    -> usize;
    fn archive_core_bench_to_bytes_records(
        numbers: *const u32,
        count: usize,
        rounds: usize,
    ) -> usize;
    fn archive_core_bench_to_bytes_each_record(
        numbers: *const u32,
        count: usize,
        rounds: usize,
    ) -> usize;
}

/// Compares two functions that access an archive, which both must accept.
fn compare_access(
    name: &str,
    elements: usize,
    bytes: &[u8],
    ours: unsafe extern "C" fn(*const u8, usize) -> bool,
    rust: fn(&[u8]) -> bool,
) -> f64 {
    // SAFETY: the pointer and the length are those of a slice.
    let ours = || unsafe { ours(black_box(bytes).as_ptr(), bytes.len()) };
    let rust = || rust(black_box(bytes));
    assert!(ours() && rust(), "{name}");
    let times = least_times(|| _ = black_box(ours()), || _ = black_box(rust()));
    report(name, elements, times)
}

/// Compares accesses to archives of one record each.
fn compare_access_each(numbers: &[u32]) -> f64 {
    let (bytes, ends) = rust::archived_each(numbers);
    // SAFETY: the pointers and lengths are those of slices.
    let ours = || unsafe {
        let bytes = black_box(&bytes);
        archive_core_bench_access_each_record(
            bytes.as_ptr(),
            bytes.len(),
            ends.as_ptr(),
            ends.len(),
        )
    };
    let rust = || rust::access_each(black_box(&bytes), &ends);
    assert_eq!((ours(), rust()), (numbers.len(), numbers.len()));
    let times = least_times(|| _ = black_box(ours()), || _ = black_box(rust()));
    report("access of each record", numbers.len(), times)
}

fn main() {
    let numbers: Vec<u32> = mixed(OPTIONS).collect();
    let of_records = &numbers[..RECORDS];
    let lengths = lengths(TEXTS);
    let ratios = [
        compare_access(
            "access of options",
            OPTIONS,
            &forms::archived_options(&numbers),
            archive_core_bench_access_options,
            rust::access::<Vec<Option<u32>>>,
        ),
        compare_access(
            "access of texts",
            TEXTS,
            &forms::archived_texts(&lengths),
            archive_core_bench_access_texts,
            rust::access::<Vec<String>>,
        ),
        compare_access(
            "access of lists",
            LISTS,
            &forms::archived_lists(&numbers),
            archive_core_bench_access_lists,
            rust::access::<Vec<Vec<u32>>>,
        ),
        compare_access(
            "access of records",
            RECORDS,
            &rust::archived_records(of_records),
            archive_core_bench_access_records,
            rust::access::<Vec<Record>>,
        ),
        compare_access_each(of_records),
        compare_writes(
            "to_bytes of options",
            OPTIONS,
            &numbers,
            archive_core_bench_to_bytes_options,
            [
                forms::serialize_options::<false>,
                forms::serialize_options::<true>,
            ],
        ),
        compare_writes(
            "to_bytes of texts",
            TEXTS,
            &lengths,
            archive_core_bench_to_bytes_texts,
            [
                forms::serialize_texts::<false>,
                forms::serialize_texts::<true>,
            ],
        ),
        compare_writes(
            "to_bytes of lists",
            LISTS,
            &numbers,
            archive_core_bench_to_bytes_lists,
            [
                forms::serialize_lists::<false>,
                forms::serialize_lists::<true>,
            ],
        ),
        compare_writes(
            "to_bytes of records",
            RECORDS,
            of_records,
            archive_core_bench_to_bytes_records,
            [rust::write_records::<false>, rust::write_records::<true>],
        ),
        compare_writes(
            "to_bytes of each record",
            RECORDS,
            of_records,
            archive_core_bench_to_bytes_each_record,
            [rust::write_each::<false>, rust::write_each::<true>],
        ),
    ];
    println!("greatest ratio {:.2}", greatest(ratios));
}
