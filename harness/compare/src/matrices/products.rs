//! `mat4_mul`, `mat4_madd`, `linear_det` and `identity`.

use super::{
    filled,
    inputs::{matrix, number},
    rust, CASES, UNTOUCHED16,
};
use crate::{rng::Rng, tally::Tally};
use mesh3d::raw::matrix;
use oracle::Transform;

pub fn compare() -> bool {
    let equal = [compare_two(), compare_identity()];
    !equal.contains(&false)
}

/// On pairs of matrices.
fn compare_two() -> bool {
    let (mut products, mut sums, mut determinants) = (Tally::new(), Tally::new(), Tally::new());
    let mut rng = Rng::new(1);
    for _ in 0..CASES {
        let (a, b, w) = (matrix(&mut rng), matrix(&mut rng), number(&mut rng));
        let (in_a, in_b) = (a.as_flattened(), b.as_flattened());

        let found = filled(UNTOUCHED16, |out| matrix::mat4_mul(&a, &b, out));
        let product = rust::mat4_mul(a, b);
        products.count_numbers(&[in_a, in_b], product.as_flattened(), found.as_flattened());

        let found = filled(UNTOUCHED16, |out| matrix::mat4_madd(&a, w, &b, out));
        let sum = filled(a, |sum| rust::mat4_madd(sum, w, &b));
        let input = [in_a, &[w], in_b];
        sums.count_numbers(&input, sum.as_flattened(), found.as_flattened());

        let determinant = [rust::linear_det(&a)];
        determinants.count_numbers(&[in_a], &determinant, &[matrix::linear_det(&a)]);
    }
    let equal = [
        products.report("mat4_mul", "cases", ""),
        sums.report("mat4_madd", "cases", ""),
        determinants.report("linear_det", "cases", ""),
    ];
    !equal.contains(&false)
}

/// The Rust's is the matrix of the identity transform.
fn compare_identity() -> bool {
    let found = filled(UNTOUCHED16, |out| matrix::identity(out));
    let identity = Transform::identity().to_matrix();
    let mut tally = Tally::new();
    tally.count_numbers(&[], identity.as_flattened(), found.as_flattened());
    tally.report("identity", "case", "")
}
