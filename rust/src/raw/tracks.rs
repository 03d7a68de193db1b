//! One keyframe track in a table of floats.

use super::Told;

/// A track in a table of floats.
#[derive(Clone, Copy, Debug)]
pub struct Track<'a> {
    /// The table that keys and values lie in.
    pub floats: &'a [f32],
    /// 0 for Vec3, 1 for Quat, 2 for scalars; any other names nothing.
    pub kind: u32,
    /// 0 for Step, 1 for Linear, 2 for CubicSpline; any other names nothing.
    pub interpolation: u32,
    /// Where the keys start.
    pub keys_at: usize,
    /// How many keys there are.
    pub keys_count: usize,
    /// Where the values start.
    pub values_at: usize,
    /// How many values there are, in entries of the kind.
    pub values_count: usize,
}

mod foreign {
    use super::Told;

    extern "C" {
        #[link_name = "mesh3d_sample_floats"]
        pub fn sample_floats(
            floats: *const f32,
            floats_len: usize,
            kind: u32,
            interpolation: u32,
            keys_at: usize,
            keys_count: usize,
            values_at: usize,
            values_count: usize,
            time: f32,
            value: *mut [f32; 4],
            out: *mut f32,
            out_len: usize,
        ) -> Told;
        #[link_name = "mesh3d_sample"]
        pub fn sample(
            table: *const u8,
            table_len: usize,
            kind: u32,
            interpolation: u32,
            keys_at: usize,
            keys_count: usize,
            values_at: usize,
            values_count: usize,
            time: u32,
            room: *mut f32,
            room_len: usize,
            value: *mut [u8; 16],
            out: *mut u8,
            out_len: usize,
        ) -> Told;
        #[link_name = "mesh3d_frame_floats"]
        pub fn frame_floats(
            floats: *const f32,
            floats_len: usize,
            kind: u32,
            interpolation: u32,
            keys_at: usize,
            keys_count: usize,
            values_at: usize,
            values_count: usize,
            rows: u32,
            k: usize,
            out: *mut f32,
            out_len: usize,
        ) -> Told;
        #[link_name = "mesh3d_stride_floats"]
        pub fn stride_floats(
            floats: *const f32,
            floats_len: usize,
            kind: u32,
            interpolation: u32,
            keys_at: usize,
            keys_count: usize,
            values_at: usize,
            values_count: usize,
        ) -> usize;
        #[link_name = "mesh3d_keys_in_line_floats"]
        pub fn keys_in_line_floats(keys: *const f32, keys_len: usize) -> u32;
    }
}

/// A Vec3 or Quat is written to the start of `value`, weights to that of `out`.
/// Answers 1 to 5, 10 or 0.
pub fn sample(track: &Track, time: f32, value: &mut [f32; 4], out: &mut [f32]) -> Told {
    // SAFETY: the function reads and writes inside the slices, whatever the numbers say.
    unsafe {
        call!(sample_floats, read track.floats, track track, value time, value value,
            write out,)
    }
}

/// The same on little-endian bytes: `table` holds the floats of the track and is decoded
/// into `room`, and `time` is a bit pattern. Answers 1 to 6, 10 or 0.
pub fn sample_bytes(
    track: &Track,
    table: &[u8],
    time: u32,
    room: &mut [f32],
    value: &mut [u8; 16],
    out: &mut [u8],
) -> Told {
    // SAFETY: as for `sample`.
    unsafe {
        call!(sample, read table, track track, value time, write room, value value,
            write out,)
    }
}

/// Copies the weights of frame `k`, or all its three rows, to the start of `out`.
/// Answers 1, 2, 4, 10, 12 or 0.
pub fn frame(track: &Track, rows: bool, k: usize, out: &mut [f32]) -> Told {
    // SAFETY: as for `sample`.
    unsafe {
        call!(frame_floats, read track.floats, track track, value u32::from(rows), value k,
            write out,)
    }
}

/// The weights per frame, or 0 where there are none.
pub fn stride(track: &Track) -> usize {
    // SAFETY: as for `sample`.
    unsafe { call!(stride_floats, read track.floats, track track,) }
}

/// Whether every key is finite and above the one before.
pub fn keys_in_line(keys: &[f32]) -> bool {
    // SAFETY: the function reads the keys alone.
    unsafe { call!(keys_in_line_floats, read keys,) == 1 }
}
