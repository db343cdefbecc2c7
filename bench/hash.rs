//! Times archived hash maps of texts to numbers that crates/archive_bench writes, walks and searches by scans of one,
//! of eight and of sixteen controls, beside the same work in Rust over the same layout by sixteen, and look-ups in
//! Rust's `HashMap` with the same hasher. Calls are made in turns, and the least processor time of all rounds counts. A
//! call that writes makes the map first: the time of a call that writes none is subtracted.

#[allow(dead_code)]
mod heap;
mod library;
mod maps;
mod measured;

/// The archived forms in plain Rust.
#[allow(dead_code)]
#[path = "plain_forms.rs"]
mod forms;
mod plain_probing;
#[path = "plain_hash.rs"]
mod rust;

use library::{WRITES, least_times};
use maps::{QUERIES, SIZES, Texts, entries, queries};
use measured::{greatest, mixed, report};
use plain_probing::FxHasher64;
use std::collections::HashMap;
use std::hash::BuildHasherDefault;
use std::hint::black_box;

/// The number of a map's own bytes, which end its archive.
const MAP: usize = 12;

type Map = HashMap<String, u64, BuildHasherDefault<FxHasher64>>;

type Writes = unsafe extern "C" fn(*const u32, usize, usize) -> usize;
type Finds =
    unsafe extern "C" fn(*const u8, usize, usize, *const u8, usize, *const usize, usize) -> u64;

// A slice is passed as a pointer and then a length. Nothing compares these declarations with the library's.
#[link(name = "archive_bench", kind = "static")]
unsafe extern "C" {
    fn archive_hash_bench_write_1(numbers: *const u32, count: usize, rounds: usize) -> usize;
    fn archive_hash_bench_write_8(numbers: *const u32, count: usize, rounds: usize) -> usize;
    fn archive_hash_bench_write_16(numbers: *const u32, count: usize, rounds: usize) -> usize;
    fn archive_hash_bench_sum_walked(bytes: *const u8, length: usize, pos: usize) -> u64;
    fn archive_hash_bench_sum_found_1(
        bytes: *const u8,
        length: usize,
        pos: usize,
        queries: *const u8,
        queries_length: usize,
        ends: *const usize,
        count: usize,
    ) -> u64;
    fn archive_hash_bench_sum_found_8(
        bytes: *const u8,
        length: usize,
        pos: usize,
        queries: *const u8,
        queries_length: usize,
        ends: *const usize,
        count: usize,
    ) -> u64;
    fn archive_hash_bench_sum_found_16(
        bytes: *const u8,
        length: usize,
        pos: usize,
        queries: *const u8,
        queries_length: usize,
        ends: *const usize,
        count: usize,
    ) -> u64;
}

/// Returns the total number of bytes of `rounds` tables of a map, which Rust makes first.
fn written_again(numbers: &[u32], rounds: usize) -> usize {
    let map: Map = entries(numbers).collect();
    let written = |_| rust::write_table(map.len(), black_box(&map).iter()).unwrap().0.len();
    (0..rounds).map(written).sum()
}

/// Compares writes of a map's table at a width, with the data of its entries.
fn compare_written(numbers: &[u32], width: usize, writes: Writes) -> f64 {
    // SAFETY: the pointer and the length are those of a slice.
    let ours = |rounds| unsafe { writes(black_box(numbers).as_ptr(), numbers.len(), rounds) };
    let rust = |rounds| written_again(black_box(numbers), rounds);
    assert_eq!(ours(1), rust(1));
    let none = least_times(|| _ = black_box(ours(0)), || _ = black_box(rust(0)));
    let all = least_times(
        || _ = black_box(ours(WRITES)),
        || _ = black_box(rust(WRITES)),
    );
    let times = (all.0 - none.0, all.1 - none.1);
    let count = numbers.len();
    report(
        &format!("{count} entries written, {width} at once"),
        count * WRITES,
        times,
    )
}

/// Compares look-ups at a width with those of Rust over the same layout and with those of its own map.
fn compare_found(bytes: &[u8], map: &Map, queries: &Texts, width: usize, finds: Finds) -> f64 {
    // SAFETY: the pointers and lengths are those of slices, and the bytes end with a map.
    let ours = || unsafe {
        finds(
            black_box(bytes).as_ptr(),
            bytes.len(),
            bytes.len() - MAP,
            queries.text.as_ptr(),
            queries.text.len(),
            queries.ends.as_ptr(),
            queries.ends.len(),
        )
    };
    let rust = || rust::sum_found(black_box(bytes), &queries.text, &queries.ends);
    let std = || queries.sum(|query| black_box(map).get(query).copied());
    assert_eq!((ours(), ours()), (rust(), std()));
    let name = format!("look-ups among {}, {width} at once", map.len());
    let times = least_times(|| _ = black_box(ours()), || _ = black_box(std()));
    report(&format!("{name}, Rust's HashMap"), QUERIES, times);
    let times = least_times(|| _ = black_box(ours()), || _ = black_box(rust()));
    report(&name, QUERIES, times)
}

/// Compares writes, a walk and look-ups of a map with a given number of entries. The ratios are those of sixteen
/// controls at once.
fn compare(count: usize) -> [f64; 3] {
    let numbers: Vec<u32> = mixed(count).collect();
    let map: Map = entries(&numbers).collect();
    let bytes = rust::write(map.len(), map.iter()).unwrap();
    let queries = queries(&numbers);

    // SAFETY: the pointers and lengths are those of slices, and the bytes end with a map.
    let ours = || unsafe {
        let bytes = black_box(&bytes);
        archive_hash_bench_sum_walked(bytes.as_ptr(), bytes.len(), bytes.len() - MAP)
    };
    let rust = || rust::sum_walked(black_box(&bytes));
    assert_eq!(ours(), rust());
    let times = least_times(|| _ = black_box(ours()), || _ = black_box(rust()));
    let walks = report(&format!("{count} entries walked"), count, times);

    compare_found(&bytes, &map, &queries, 1, archive_hash_bench_sum_found_1);
    compare_found(&bytes, &map, &queries, 8, archive_hash_bench_sum_found_8);
    let looks = compare_found(&bytes, &map, &queries, 16, archive_hash_bench_sum_found_16);
    compare_written(&numbers, 1, archive_hash_bench_write_1);
    compare_written(&numbers, 8, archive_hash_bench_write_8);
    let writes = compare_written(&numbers, 16, archive_hash_bench_write_16);
    [writes, walks, looks]
}

fn main() {
    println!(
        "greatest ratio at sixteen at once {:.2}",
        greatest(SIZES.into_iter().flat_map(compare))
    );
}
