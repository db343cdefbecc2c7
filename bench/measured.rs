//! The functions that the programs of loops share: times of calls that are made in turns, a line that compares two of
//! them, and numbers without order.

/// Returns the least time of each call. They are made in turns, `rounds` times each, and each round begins with another
/// one. Each call returns the time that it took.
pub fn least_of(rounds: usize, calls: &mut [impl FnMut() -> f64]) -> Vec<f64> {
    let count = calls.len();
    let mut least = vec![f64::MAX; count];
    for round in 0..rounds {
        for turn in 0..count {
            let at = (round + turn) % count;
            least[at] = least[at].min(calls[at]());
        }
    }
    least
}

/// Returns the least times of two calls, which are made in turns, `rounds` times each. Each call returns the time that
/// it took.
pub fn least(
    rounds: usize,
    mut ours: impl FnMut() -> f64,
    mut rust: impl FnMut() -> f64,
) -> (f64, f64) {
    let mut calls: [&mut dyn FnMut() -> f64; 2] = [&mut ours, &mut rust];
    let times = least_of(rounds, &mut calls);
    (times[0], times[1])
}

/// Prints the times that two calls take for each of their elements, in nanoseconds, and returns their ratio.
pub fn report(name: &str, elements: usize, (ours, rust): (f64, f64)) -> f64 {
    let ratio = ours / rust;
    let each = elements as f64;
    println!(
        "{name}: ours {:.3} ns, Rust {:.3} ns an element, ratio {ratio:.2}",
        ours / each,
        rust / each
    );
    ratio
}

/// Returns the greatest of the ratios.
pub fn greatest(ratios: impl IntoIterator<Item = f64>) -> f64 {
    ratios.into_iter().fold(0.0, f64::max)
}

/// Returns numbers without order, the same in each run.
pub fn mixed(count: usize) -> impl Iterator<Item = u32> {
    let mut state = 88_172_645_463_325_252u64;
    (0..count).map(move |_| {
        state ^= state << 13;
        state ^= state >> 7;
        state ^= state << 17;
        (state >> 32) as u32
    })
}
