//! The functions that forms.rs, core.rs, btree.rs, hash.rs and peers.rs share: the processor times of calls, a comparison
//! of functions that write, and lengths of texts.

use crate::measured::{least, mixed, report};
use std::hint::black_box;

pub const ROUNDS: usize = 41;
pub const WRITES: usize = 8;

#[repr(C)]
struct Time {
    seconds: i64,
    nanoseconds: i64,
}

unsafe extern "C" {
    fn clock_gettime(clock: i32, time: *mut Time) -> i32;
}

/// Returns the processor time of the process, in nanoseconds.
fn processor_time() -> f64 {
    let mut time = Time {
        seconds: 0,
        nanoseconds: 0,
    };
    // SAFETY: `time` is a valid place for the result. 2 is CLOCK_PROCESS_CPUTIME_ID of Linux.
    unsafe { clock_gettime(2, &mut time) };
    time.seconds as f64 * 1e9 + time.nanoseconds as f64
}

/// Returns the least processor times of two calls, in nanoseconds.
pub fn least_times(mut ours: impl FnMut(), mut rust: impl FnMut()) -> (f64, f64) {
    least(ROUNDS, || nanoseconds(&mut ours), || nanoseconds(&mut rust))
}

/// Returns the processor time that a call took, in nanoseconds.
pub fn nanoseconds(call: &mut impl FnMut()) -> f64 {
    let began = processor_time();
    call();
    processor_time() - began
}

/// Compares functions that write archives, which must have the same length. Rust writes them in place and in pieces.
pub fn compare_writes(
    name: &str,
    elements: usize,
    numbers: &[u32],
    ours: unsafe extern "C" fn(*const u32, usize, usize) -> usize,
    rust: [fn(&[u32], usize) -> usize; 2],
) -> f64 {
    // SAFETY: the pointer and the length are those of a slice.
    let ours = |rounds| unsafe { ours(black_box(numbers).as_ptr(), numbers.len(), rounds) };
    let mut ratio = 0.0;
    for (rust, how) in rust.into_iter().zip(["in place", "in pieces"]) {
        let rust = |rounds| rust(black_box(numbers), rounds);
        assert_eq!(ours(1), rust(1), "{name}");
        let none = least_times(|| _ = black_box(ours(0)), || _ = black_box(rust(0)));
        let all = least_times(
            || _ = black_box(ours(WRITES)),
            || _ = black_box(rust(WRITES)),
        );
        let times = (all.0 - none.0, all.1 - none.1);
        ratio = report(&format!("{name}, {how}"), elements * WRITES, times).max(ratio);
    }
    ratio
}

/// Returns lengths of texts, half of them of eight bytes at most, and the others of up to 40.
pub fn lengths(count: usize) -> Vec<u32> {
    let of = |n: u32| {
        if n % 2 == 0 {
            n / 2 % 9
        } else {
            9 + n / 2 % 32
        }
    };
    mixed(count).map(of).collect()
}
