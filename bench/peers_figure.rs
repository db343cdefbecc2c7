//! What peers.rs and peers_typed.rs share: the times of calls, and the lines that bench/peers.sh reads.

use crate::library::nanoseconds;
use crate::measured::least_of;

/// Prints a line for a figure: what is timed, the document, what is done with it, by what, the figure and its unit, apart
/// by tabulators.
pub fn print_figure(what: &str, document: &str, action: &str, peer: &str, figure: f64, unit: &str) {
    println!("{what}\t{document}\t{action}\t{peer}\t{figure:.3}\t{unit}");
}

/// Returns the least processor time of each call in a number of rounds, in nanoseconds.
pub fn least_times_of(rounds: usize, calls: &mut [impl FnMut()]) -> Vec<f64> {
    let mut timed: Vec<_> = calls.iter_mut().map(|call| || nanoseconds(call)).collect();
    least_of(rounds, &mut timed)
}
