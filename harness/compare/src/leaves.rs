//! The numeric leaves: roots, narrowing and turn weights.

mod blocks;
mod lengths;
pub mod narrowing;
pub mod roots;
pub mod speed;
pub mod turns;

/// Runs every comparison, even after one that differs.
pub fn compare() -> bool {
    let equal = [
        roots::compare(),
        blocks::compare(),
        narrowing::compare(),
        turns::compare(),
        turns::compare_nan(),
        lengths::compare(),
    ];
    !equal.contains(&false)
}
