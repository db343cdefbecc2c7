//! Times the loops over archived numbers in crates/archive_bench beside the same loops in Rust. Each loop is in a
//! function that is not inlined. Both are called in turns, and the least time of all rounds counts.

mod heap;
mod measured;

use measured::{greatest, least, mixed, report};
use std::hint::black_box;
use std::time::Instant;

const ROUNDS: usize = 401;
const SCANNED: usize = 1_000_000;
const READ: usize = 10_000;
const FEW: usize = 2_000;
const FIRST: i64 = -1_234_567_890_123;

// A slice is passed as a pointer and then a length. Nothing compares these declarations with the library's.
#[link(name = "archive_bench", kind = "static")]
unsafe extern "C" {
    fn archive_bench_read_i64(
        bytes: *const u8,
        length: usize,
        positions: *const u32,
        count: usize,
    ) -> i64;
    fn archive_bench_read_u32(
        bytes: *const u8,
        length: usize,
        positions: *const u32,
        count: usize,
    ) -> u64;
    fn archive_bench_write_i64(
        bytes: *mut u8,
        length: usize,
        positions: *const u32,
        count: usize,
        number: i64,
    );
    fn archive_bench_seal_i64(
        bytes: *mut u8,
        length: usize,
        positions: *const u32,
        count: usize,
        number: i64,
    );
    fn archive_bench_read_target(
        bytes: *const u8,
        length: usize,
        positions: *const u32,
        count: usize,
    ) -> usize;
    fn archive_bench_sum_targets(bytes: *const u8, length: usize) -> usize;
    fn archive_bench_sum_i64(bytes: *const u8, length: usize) -> i64;
    fn archive_bench_sum_u32(bytes: *const u8, length: usize) -> u64;
    fn archive_bench_fill_i64(bytes: *mut u8, length: usize, first: i64);
}

/// The loops of the library. Those over positions require that each leaves room for a number.
mod ours {
    pub unsafe fn read_i64(bytes: &[u8], positions: &[u32]) -> i64 {
        unsafe {
            super::archive_bench_read_i64(
                bytes.as_ptr(),
                bytes.len(),
                positions.as_ptr(),
                positions.len(),
            )
        }
    }

    pub unsafe fn read_u32(bytes: &[u8], positions: &[u32]) -> u64 {
        unsafe {
            super::archive_bench_read_u32(
                bytes.as_ptr(),
                bytes.len(),
                positions.as_ptr(),
                positions.len(),
            )
        }
    }

    pub unsafe fn write_i64(bytes: &mut [u8], positions: &[u32], number: i64) {
        unsafe {
            super::archive_bench_write_i64(
                bytes.as_mut_ptr(),
                bytes.len(),
                positions.as_ptr(),
                positions.len(),
                number,
            );
        }
    }

    pub unsafe fn seal_i64(bytes: &mut [u8], positions: &[u32], number: i64) {
        unsafe {
            super::archive_bench_seal_i64(
                bytes.as_mut_ptr(),
                bytes.len(),
                positions.as_ptr(),
                positions.len(),
                number,
            );
        }
    }

    pub unsafe fn read_target(bytes: &[u8], positions: &[u32]) -> usize {
        unsafe {
            super::archive_bench_read_target(
                bytes.as_ptr(),
                bytes.len(),
                positions.as_ptr(),
                positions.len(),
            )
        }
    }

    pub fn sum_targets(bytes: &[u8]) -> usize {
        unsafe { super::archive_bench_sum_targets(bytes.as_ptr(), bytes.len()) }
    }

    pub fn sum_i64(bytes: &[u8]) -> i64 {
        unsafe { super::archive_bench_sum_i64(bytes.as_ptr(), bytes.len()) }
    }

    pub fn sum_u32(bytes: &[u8]) -> u64 {
        unsafe { super::archive_bench_sum_u32(bytes.as_ptr(), bytes.len()) }
    }

    pub fn fill_i64(bytes: &mut [u8], first: i64) {
        unsafe { super::archive_bench_fill_i64(bytes.as_mut_ptr(), bytes.len(), first) }
    }
}

/// The same loops in Rust. The scans are also written with `chunks_exact`.
mod rust {
    #[inline(never)]
    pub fn read_i64(bytes: &[u8], positions: &[u32]) -> i64 {
        let mut total = 0i64;
        for p in positions {
            let p = *p as usize;
            total = total.wrapping_add(i64::from_le_bytes(bytes[p..p + 8].try_into().unwrap()));
        }
        total
    }

    #[inline(never)]
    pub fn read_u32(bytes: &[u8], positions: &[u32]) -> u64 {
        let mut total = 0u64;
        for p in positions {
            let p = *p as usize;
            total = total.wrapping_add(u64::from(u32::from_le_bytes(
                bytes[p..p + 4].try_into().unwrap(),
            )));
        }
        total
    }

    #[inline(never)]
    pub fn write_i64(bytes: &mut [u8], positions: &[u32], number: i64) {
        for p in positions {
            let p = *p as usize;
            bytes[p..p + 8].copy_from_slice(&number.to_le_bytes());
        }
    }

    fn target(own: &[u8], p: usize) -> usize {
        let offset = i32::from_le_bytes(own.try_into().unwrap()) as isize;
        p.checked_add_signed(offset).unwrap_or(0)
    }

    #[inline(never)]
    pub fn read_target(bytes: &[u8], positions: &[u32]) -> usize {
        let mut total = 0usize;
        for p in positions {
            let p = *p as usize;
            total = total.wrapping_add(target(&bytes[p..p + 4], p));
        }
        total
    }

    #[inline(never)]
    pub fn sum_targets(bytes: &[u8]) -> usize {
        let mut total = 0usize;
        for i in 0..bytes.len() / 4 {
            let p = i * 4;
            total = total.wrapping_add(target(&bytes[p..p + 4], p));
        }
        total
    }

    #[inline(never)]
    pub fn sum_targets_by_chunks(bytes: &[u8]) -> usize {
        let mut total = 0usize;
        for (i, own) in bytes.chunks_exact(4).enumerate() {
            total = total.wrapping_add(target(own, i * 4));
        }
        total
    }

    #[inline(never)]
    pub fn sum_i64(bytes: &[u8]) -> i64 {
        let mut total = 0i64;
        for i in 0..bytes.len() / 8 {
            let p = i * 8;
            total = total.wrapping_add(i64::from_le_bytes(bytes[p..p + 8].try_into().unwrap()));
        }
        total
    }

    #[inline(never)]
    pub fn sum_i64_by_chunks(bytes: &[u8]) -> i64 {
        let mut total = 0i64;
        for own in bytes.chunks_exact(8) {
            total = total.wrapping_add(i64::from_le_bytes(own.try_into().unwrap()));
        }
        total
    }

    #[inline(never)]
    pub fn sum_u32(bytes: &[u8]) -> u64 {
        let mut total = 0u64;
        for i in 0..bytes.len() / 4 {
            let p = i * 4;
            total = total.wrapping_add(u64::from(u32::from_le_bytes(
                bytes[p..p + 4].try_into().unwrap(),
            )));
        }
        total
    }

    #[inline(never)]
    pub fn sum_u32_by_chunks(bytes: &[u8]) -> u64 {
        let mut total = 0u64;
        for own in bytes.chunks_exact(4) {
            total = total.wrapping_add(u64::from(u32::from_le_bytes(own.try_into().unwrap())));
        }
        total
    }

    #[inline(never)]
    pub fn fill_i64(bytes: &mut [u8], first: i64) {
        for i in 0..bytes.len() / 8 {
            let p = i * 8;
            bytes[p..p + 8].copy_from_slice(&first.wrapping_add(i as i64).to_le_bytes());
        }
    }

    #[inline(never)]
    pub fn fill_i64_by_chunks(bytes: &mut [u8], first: i64) {
        for (i, own) in bytes.chunks_exact_mut(8).enumerate() {
            own.copy_from_slice(&first.wrapping_add(i as i64).to_le_bytes());
        }
    }
}

/// Returns the nanoseconds that the given number of calls take.
fn nanoseconds(calls: usize, mut call: impl FnMut()) -> f64 {
    let began = Instant::now();
    for _ in 0..calls {
        call();
    }
    began.elapsed().as_secs_f64() * 1e9
}

/// Compares the time that a call takes for each of its numbers, prints it, and returns the ratio.
fn compare(name: &str, numbers: usize, mut ours: impl FnMut(), mut rust: impl FnMut()) -> f64 {
    let calls = SCANNED / numbers;
    let ours = || nanoseconds(calls, &mut ours);
    let rust = || nanoseconds(calls, &mut rust);
    report(name, calls * numbers, least(ROUNDS, ours, rust))
}

/// Compares two functions that read a buffer, which must return the same value.
fn compare_scans<N: PartialEq + std::fmt::Debug>(
    name: &str,
    bytes: &[u8],
    size: usize,
    ours: fn(&[u8]) -> N,
    rust: fn(&[u8]) -> N,
) -> f64 {
    assert_eq!(ours(bytes), rust(bytes), "{name}");
    let ours = || _ = black_box(ours(black_box(bytes)));
    let rust = || _ = black_box(rust(black_box(bytes)));
    compare(name, bytes.len() / size, ours, rust)
}

/// Compares two functions that read at positions of a buffer, which must return the same value.
fn compare_reads<N: PartialEq + std::fmt::Debug>(
    name: &str,
    bytes: &[u8],
    positions: &[u32],
    ours: unsafe fn(&[u8], &[u32]) -> N,
    rust: fn(&[u8], &[u32]) -> N,
) -> f64 {
    assert!(positions.iter().all(|p| *p as usize + 8 <= bytes.len()));
    // SAFETY: each position leaves room for 8 bytes.
    let ours = |bytes, positions| unsafe { ours(bytes, positions) };
    assert_eq!(ours(bytes, positions), rust(bytes, positions), "{name}");
    let ours = || _ = black_box(ours(black_box(bytes), black_box(positions)));
    let rust = || _ = black_box(rust(black_box(bytes), black_box(positions)));
    compare(name, positions.len(), ours, rust)
}

/// Compares two functions that write numbers into a buffer, which must leave the same there.
fn compare_writes(
    name: &str,
    bytes: &[u8],
    numbers: usize,
    ours: impl Fn(&mut [u8]),
    rust: impl Fn(&mut [u8]),
) -> f64 {
    let (mut by_ours, mut by_rust) = (bytes.to_vec(), bytes.to_vec());
    ours(&mut by_ours);
    rust(&mut by_rust);
    assert_eq!(by_ours, by_rust, "{name}");
    // Both write into the same memory.
    let memory = std::cell::RefCell::new(by_ours);
    let timed_ours = || ours(black_box(&mut memory.borrow_mut()));
    let timed_rust = || rust(black_box(&mut memory.borrow_mut()));
    compare(name, numbers, timed_ours, timed_rust)
}

/// Returns bytes without order, the same in each run.
fn mixed_bytes(length: usize) -> Vec<u8> {
    mixed(length).map(|number| number as u8).collect()
}

/// Returns positions, without order, of `i64`s that lie side by side.
fn mixed_positions(numbers: usize) -> Vec<u32> {
    let chosen = mixed_bytes(READ * 4);
    chosen
        .chunks_exact(4)
        .map(|own| u32::from_le_bytes(own.try_into().unwrap()) % numbers as u32 * 8)
        .collect()
}

/// Returns relative pointers side by side, each of which leads to one of them.
fn pointers(count: usize) -> Vec<u8> {
    let places = mixed_bytes(count * 4);
    let mut bytes = Vec::new();
    for (i, own) in places.chunks_exact(4).enumerate() {
        let to = u32::from_le_bytes(own.try_into().unwrap()) as usize % count * 4;
        bytes.extend((to as i32 - (i * 4) as i32).to_le_bytes());
    }
    bytes
}

/// Compares reads of single numbers and pointers, and returns the ratios.
fn single_reads(at: &[u32]) -> Vec<f64> {
    let (numbers, led) = (mixed_bytes(FEW * 8), pointers(FEW * 2));
    vec![
        compare_reads(
            "to_native of i64",
            &numbers,
            at,
            ours::read_i64,
            rust::read_i64,
        ),
        compare_reads(
            "to_native of u32",
            &numbers,
            at,
            ours::read_u32,
            rust::read_u32,
        ),
        compare_reads(
            "target of RelPtr",
            &led,
            at,
            ours::read_target,
            rust::read_target,
        ),
    ]
}

/// Compares writes of single numbers, and returns the ratios.
fn single_writes(at: &[u32]) -> Vec<f64> {
    let numbers = mixed_bytes(FEW * 8);
    assert!(at.iter().all(|p| *p as usize + 8 <= numbers.len()));
    // SAFETY: each position leaves room for 8 bytes in a buffer of the same length as `numbers`.
    let placed = |bytes: &mut [u8]| unsafe { ours::write_i64(bytes, at, black_box(FIRST)) };
    let sealed = |bytes: &mut [u8]| unsafe { ours::seal_i64(bytes, at, black_box(FIRST)) };
    let written = |bytes: &mut [u8]| rust::write_i64(bytes, at, black_box(FIRST));
    vec![
        compare_writes("from_native, Place::write", &numbers, READ, placed, written),
        compare_writes("from_native, Seal::write", &numbers, READ, sealed, written),
    ]
}

/// Compares scans, and returns the ratios.
fn scans() -> Vec<f64> {
    let (wide, narrow, led) = (
        mixed_bytes(SCANNED * 8),
        mixed_bytes(SCANNED * 4),
        pointers(SCANNED),
    );
    let filled = |bytes: &mut [u8]| ours::fill_i64(bytes, black_box(FIRST));
    let by_rust = |bytes: &mut [u8]| rust::fill_i64(bytes, black_box(FIRST));
    let by_chunks = |bytes: &mut [u8]| rust::fill_i64_by_chunks(bytes, black_box(FIRST));
    vec![
        compare_scans("sum of i64", &wide, 8, ours::sum_i64, rust::sum_i64),
        compare_scans(
            "sum of i64, chunks",
            &wide,
            8,
            ours::sum_i64,
            rust::sum_i64_by_chunks,
        ),
        compare_scans("sum of u32", &narrow, 4, ours::sum_u32, rust::sum_u32),
        compare_scans(
            "sum of u32, chunks",
            &narrow,
            4,
            ours::sum_u32,
            rust::sum_u32_by_chunks,
        ),
        compare_scans("targets", &led, 4, ours::sum_targets, rust::sum_targets),
        compare_scans(
            "targets, chunks",
            &led,
            4,
            ours::sum_targets,
            rust::sum_targets_by_chunks,
        ),
        compare_writes("write of i64", &wide, SCANNED, filled, by_rust),
        compare_writes("write of i64, chunks", &wide, SCANNED, filled, by_chunks),
    ]
}

fn main() {
    println!("at one position after the other, without order:");
    let at = mixed_positions(FEW);
    let mut ratios = single_reads(black_box(&at));
    ratios.extend(single_writes(black_box(&at)));
    println!("{SCANNED} side by side, in Rust by position or by `chunks_exact`:");
    ratios.extend(scans());
    println!(
        "greatest ratio {:.2}, which is to be at most 1.10",
        greatest(ratios)
    );
}
