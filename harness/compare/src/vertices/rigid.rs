//! `transformed`.

use super::{
    meshes::{joined, of_rust, over, vertices, LENGTHS},
    MESHES,
};
use crate::{
    matrices::nearly_affine,
    rng::Rng,
    tally::{Met, Tally},
};
use mesh3d::raw::Mat4;
use oracle::{parts::linear_det, scene::mat4_affine_inverse};

pub fn compare() -> bool {
    let mut tally = Tally::new();
    let mut lengths = Met::new(LENGTHS);
    let mut sorts = Met::new(["mirrors", "no inverse", "other bottom rows", "others"]);
    let mut rng = Rng::new(1);
    for _ in 0..MESHES {
        let m = nearly_affine(&mut rng);
        let lent = vertices(&mut rng, &mut lengths);
        sorts.count(sort_of(&m));

        let expected = over(&lent, &of_rust(&lent).transformed(m));
        let mut found = lent.clone();
        found.transform(&m);
        tally.count_numbers(
            &[m.as_flattened(), &joined(&lent)],
            &joined(&expected),
            &joined(&found),
        );
    }
    let note = sorts.note() + &lengths.note();
    let equal = [
        tally.report("transformed", "meshes", &note),
        sorts.report(),
        lengths.report(),
    ];
    !equal.contains(&false)
}

fn sort_of(m: &Mat4) -> usize {
    match () {
        _ if linear_det(m) < 0.0 => 0,
        _ if mat4_affine_inverse(*m).is_none() => 1,
        _ if m[3] != [0.0, 0.0, 0.0, 1.0] => 2,
        _ => 3,
    }
}
