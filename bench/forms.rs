//! Times checks, writes and reads of archived forms in crates/archive_bench beside the same work in Rust: over a vector
//! of options, one of texts and one of vectors. Both are called in turns, and the least processor time of all rounds
//! counts. A call that writes makes the values first: the time of a call that writes none is subtracted. Rust writes
//! own bytes in place, in the vector that grows, and also in pieces, as the library does, whose writers only append
//! bytes.

mod heap;
mod library;
mod measured;

use library::{compare_writes, least_times, lengths};
use measured::{greatest, mixed, report};
use std::hint::black_box;

const OPTIONS: usize = 1_000_000;
const TEXTS: usize = 100_000;
const LISTS: usize = 100_000;

// A slice is passed as a pointer and then a length. Nothing compares these declarations with the library's.
#[link(name = "archive_bench", kind = "static")]
unsafe extern "C" {
    fn archive_forms_bench_check_options(bytes: *const u8, length: usize, pos: usize) -> bool;
    fn archive_forms_bench_check_texts(bytes: *const u8, length: usize, pos: usize) -> bool;
    fn archive_forms_bench_check_lists(bytes: *const u8, length: usize, pos: usize) -> bool;
    fn archive_forms_bench_sum_options(bytes: *const u8, length: usize, pos: usize) -> u64;
    fn archive_forms_bench_sum_texts(bytes: *const u8, length: usize, pos: usize) -> u64;
    fn archive_forms_bench_sum_lists(bytes: *const u8, length: usize, pos: usize) -> u64;
    fn archive_forms_bench_serialize_options(
        numbers: *const u32,
        count: usize,
        rounds: usize,
    ) -> usize;
    fn archive_forms_bench_serialize_texts(
        lengths: *const u32,
        count: usize,
        rounds: usize,
    ) -> usize;
    fn archive_forms_bench_serialize_lists(
        numbers: *const u32,
        count: usize,
        rounds: usize,
    ) -> usize;
}

/// The archived forms in plain Rust.
#[path = "plain_forms.rs"]
mod rust;

/// Compares two functions that read the archive, which must return the same value.
fn compare_reads<N: PartialEq + std::fmt::Debug>(
    name: &str,
    elements: usize,
    bytes: &[u8],
    ours: unsafe extern "C" fn(*const u8, usize, usize) -> N,
    rust: fn(&[u8], usize) -> N,
) -> f64 {
    let pos = bytes.len() - 8;
    // SAFETY: a value is read only where its check, which is compared first, has accepted it.
    let ours = |bytes: &[u8], pos| unsafe { ours(bytes.as_ptr(), bytes.len(), pos) };
    assert_eq!(ours(bytes, pos), rust(bytes, pos), "{name}");
    let ours = || _ = black_box(ours(black_box(bytes), pos));
    let rust = || _ = black_box(rust(black_box(bytes), pos));
    report(name, elements, least_times(ours, rust))
}

fn main() {
    let numbers: Vec<u32> = mixed(OPTIONS).collect();
    let lengths = lengths(TEXTS);
    let options = rust::archived_options(&numbers);
    let texts = rust::archived_texts(&lengths);
    let lists = rust::archived_lists(&numbers);
    let ratios = [
        compare_reads(
            "check of options",
            OPTIONS,
            &options,
            archive_forms_bench_check_options,
            rust::check_options,
        ),
        compare_reads(
            "check of texts",
            TEXTS,
            &texts,
            archive_forms_bench_check_texts,
            rust::check_texts,
        ),
        compare_reads(
            "check of lists",
            LISTS,
            &lists,
            archive_forms_bench_check_lists,
            rust::check_lists,
        ),
        compare_writes(
            "serialize of options",
            OPTIONS,
            &numbers,
            archive_forms_bench_serialize_options,
            [
                rust::serialize_options::<false>,
                rust::serialize_options::<true>,
            ],
        ),
        compare_writes(
            "serialize of texts",
            TEXTS,
            &lengths,
            archive_forms_bench_serialize_texts,
            [
                rust::serialize_texts::<false>,
                rust::serialize_texts::<true>,
            ],
        ),
        compare_writes(
            "serialize of lists",
            LISTS,
            &numbers,
            archive_forms_bench_serialize_lists,
            [
                rust::serialize_lists::<false>,
                rust::serialize_lists::<true>,
            ],
        ),
        compare_reads(
            "sum of options",
            OPTIONS,
            &options,
            archive_forms_bench_sum_options,
            rust::sum_options,
        ),
        compare_reads(
            "sum of texts",
            TEXTS,
            &texts,
            archive_forms_bench_sum_texts,
            rust::sum_texts,
        ),
        compare_reads(
            "sum of lists",
            LISTS,
            &lists,
            archive_forms_bench_sum_lists,
            rust::sum_lists,
        ),
    ];
    println!("greatest ratio {:.2}", greatest(ratios));
}
