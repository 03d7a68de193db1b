//! A scene as it is lent: the layout of its tables, and the number that they
//! draw.

pub mod build;
mod decode;
pub mod example;
mod fields;
pub mod generate;
mod hostile;
pub mod layout;
mod limits;
pub mod numbers;
mod round_trip;
mod same;
pub mod speed;
mod zeros;

/// Runs every comparison, even after one that differs.
pub fn compare() -> bool {
    let equal = [
        example::compare(),
        round_trip::compare(),
        limits::compare(),
        hostile::compare(),
    ];
    !equal.contains(&false)
}
