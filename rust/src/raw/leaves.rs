//! Roots, narrowed doubles and the weights of a turn, over slices of numbers.

/// The numbers whose roots are taken together.
pub type Block = [f32; 16];

mod foreign {
    extern "C" {
        #[link_name = "mesh3d_sqrt_all"]
        pub fn sqrt_all(xs: *const f32, xs_len: usize, out: *mut f32, out_len: usize) -> usize;
        #[link_name = "mesh3d_sqrt_block"]
        pub fn sqrt_block(xs: *const super::Block, out: *mut super::Block) -> bool;
        #[link_name = "mesh3d_narrow_all"]
        pub fn narrow_all(xs: *const f64, xs_len: usize, out: *mut f32, out_len: usize) -> usize;
        #[link_name = "mesh3d_turn_weight_all"]
        pub fn turn_weight_all(
            vs: *const f32,
            vs_len: usize,
            cs: *const f32,
            cs_len: usize,
            out: *mut f32,
            out_len: usize,
        ) -> usize;
    }
}

/// The square root of each, as far as both slices reach; answers how many.
pub fn sqrt_all(xs: &[f32], out: &mut [f32]) -> usize {
    // SAFETY: slices valid for their lengths are all that is asked.
    unsafe { call!(sqrt_all, read xs, write out,) }
}

/// The roots of sixteen numbers; answers whether all are normal: at least 2^-126 and
/// below 1e37.
pub fn sqrt_block(xs: &Block, out: &mut Block) -> bool {
    // SAFETY: both are read or written over this length alone.
    unsafe { foreign::sqrt_block(xs, out) }
}

/// Each double rounded to a float, as far as both slices reach; answers how many.
pub fn narrow_all(xs: &[f64], out: &mut [f32]) -> usize {
    // SAFETY: as for `sqrt_all`.
    unsafe { call!(narrow_all, read xs, write out,) }
}

/// The weight of each turn, of portions and cosines, as far as all slices reach;
/// answers how many.
pub fn turn_weight_all(vs: &[f32], cs: &[f32], out: &mut [f32]) -> usize {
    // SAFETY: as for `sqrt_all`.
    unsafe { call!(turn_weight_all, read vs, read cs, write out,) }
}
