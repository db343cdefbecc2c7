//! Times archived maps of texts to numbers that crates/archive_bench writes, walks, searches and walks in ranges of a
//! hundred entries, beside the same work in Rust over the same layout, and look-ups in Rust's `BTreeMap`. Calls are
//! made in turns, and the least processor time of all rounds counts. A call that writes makes the map first: the time
//! of a call that writes none is subtracted.

#[allow(dead_code)]
mod heap;
mod library;
mod maps;
mod measured;

/// The archived forms in plain Rust.
#[allow(dead_code)]
#[path = "plain_forms.rs"]
mod forms;
#[path = "plain_btree.rs"]
mod rust;

use library::{WRITES, least_times};
use maps::{QUERIES, SIZES, Texts, entries, queries};
use measured::{greatest, mixed, report};
use std::collections::BTreeMap;
use std::hint::black_box;

const RANGES: usize = 1_000;
const IN_RANGE: usize = 100;
/// The number of a map's own bytes, which end its archive.
const MAP: usize = 8;

// A slice is passed as a pointer and then a length. Nothing compares these declarations with the library's.
#[link(name = "archive_bench", kind = "static")]
unsafe extern "C" {
    fn archive_btree_bench_write(numbers: *const u32, count: usize, rounds: usize) -> usize;
    fn archive_btree_bench_sum_walked(bytes: *const u8, length: usize, pos: usize) -> u64;
    fn archive_btree_bench_sum_found(
        bytes: *const u8,
        length: usize,
        pos: usize,
        queries: *const u8,
        queries_length: usize,
        ends: *const usize,
        count: usize,
    ) -> u64;
    fn archive_btree_bench_sum_ranges(
        bytes: *const u8,
        length: usize,
        pos: usize,
        bounds: *const u8,
        bounds_length: usize,
        ends: *const usize,
        count: usize,
    ) -> u64;
}

fn map_of(numbers: &[u32]) -> BTreeMap<String, u64> {
    entries(numbers).collect()
}

/// Returns for each range the key of its first entry, and the key after its last one.
fn ranges(map: &BTreeMap<String, u64>) -> Texts {
    let keys: Vec<&String> = map.keys().collect();
    let last = keys.len() - IN_RANGE;
    let of = |n: u32| {
        let first = n as usize % last;
        [keys[first], keys[first + IN_RANGE]]
    };
    mixed(RANGES).flat_map(of).collect()
}

/// Compares walks in ranges.
fn compare_ranges(bytes: &[u8], map: &BTreeMap<String, u64>) -> f64 {
    let bounds = ranges(map);
    // SAFETY: the pointers and lengths are those of slices, and the bytes end with a map.
    let ours = || unsafe {
        archive_btree_bench_sum_ranges(
            black_box(bytes).as_ptr(),
            bytes.len(),
            bytes.len() - MAP,
            bounds.text.as_ptr(),
            bounds.text.len(),
            bounds.ends.as_ptr(),
            bounds.ends.len(),
        )
    };
    let rust = || rust::sum_ranges(black_box(bytes), bounds.text.as_bytes(), &bounds.ends);
    assert_eq!(ours(), rust());
    let times = least_times(|| _ = black_box(ours()), || _ = black_box(rust()));
    report(
        &format!("ranges of {IN_RANGE} among {}", map.len()),
        RANGES,
        times,
    )
}

/// Returns the total number of bytes of `rounds` archives of a map, which Rust makes first.
fn written_again(numbers: &[u32], rounds: usize) -> usize {
    let map = map_of(numbers);
    let written = |_| rust::write(black_box(&map)).unwrap().len();
    (0..rounds).map(written).sum()
}

/// Compares writes of a map.
fn compare_written(numbers: &[u32]) -> f64 {
    // SAFETY: the pointer and the length are those of a slice.
    let ours = |rounds| unsafe {
        archive_btree_bench_write(black_box(numbers).as_ptr(), numbers.len(), rounds)
    };
    let rust = |rounds| written_again(black_box(numbers), rounds);
    assert_eq!(ours(1), rust(1));
    let none = least_times(|| _ = black_box(ours(0)), || _ = black_box(rust(0)));
    let all = least_times(
        || _ = black_box(ours(WRITES)),
        || _ = black_box(rust(WRITES)),
    );
    let times = (all.0 - none.0, all.1 - none.1);
    let count = numbers.len();
    report(&format!("{count} entries written"), count * WRITES, times)
}

/// Compares writes, a walk, look-ups and walks in ranges of a map with a given number of entries.
fn compare(count: usize) -> [f64; 4] {
    let numbers: Vec<u32> = mixed(count).collect();
    let map = map_of(&numbers);
    let bytes = rust::write(&map).unwrap();
    let queries = queries(&numbers);

    // SAFETY: the pointers and lengths are those of slices, and the bytes end with a map.
    let ours = || unsafe {
        let bytes = black_box(&bytes);
        archive_btree_bench_sum_walked(bytes.as_ptr(), bytes.len(), bytes.len() - MAP)
    };
    let rust = || rust::sum_walked(black_box(&bytes));
    assert_eq!(ours(), rust());
    let times = least_times(|| _ = black_box(ours()), || _ = black_box(rust()));
    let walks = report(&format!("{count} entries walked"), count, times);

    // SAFETY: the pointers and lengths are those of slices, and the bytes end with a map.
    let ours = || unsafe {
        archive_btree_bench_sum_found(
            black_box(&bytes).as_ptr(),
            bytes.len(),
            bytes.len() - MAP,
            queries.text.as_ptr(),
            queries.text.len(),
            queries.ends.as_ptr(),
            queries.ends.len(),
        )
    };
    let rust = || rust::sum_found(black_box(&bytes), queries.text.as_bytes(), &queries.ends);
    let std = || queries.sum(|query| black_box(&map).get(query).copied());
    assert_eq!((ours(), ours()), (rust(), std()));
    let times = least_times(|| _ = black_box(ours()), || _ = black_box(rust()));
    let looks = report(&format!("look-ups among {count}"), QUERIES, times);
    let times = least_times(|| _ = black_box(ours()), || _ = black_box(std()));
    report(
        &format!("look-ups among {count}, Rust's BTreeMap"),
        QUERIES,
        times,
    );
    let ranges = compare_ranges(&bytes, &map);
    [compare_written(&numbers), walks, looks, ranges]
}

fn main() {
    println!(
        "greatest ratio {:.2}",
        greatest(SIZES.into_iter().flat_map(compare))
    );
}
