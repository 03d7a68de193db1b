//! The clock and the allocator of the C library, safe to call.

mod foreign {
    #[repr(C)]
    pub struct Timespec {
        pub seconds: i64,
        pub nanoseconds: i64,
    }

    extern "C" {
        pub fn mallopt(parameter: i32, value: i32) -> i32;
        pub fn clock_gettime(clock: i32, time: *mut Timespec) -> i32;
    }
}

/// CPU time of this process so far, in nanoseconds.
pub fn cpu_time() -> f64 {
    const CLOCK_PROCESS_CPUTIME_ID: i32 = 2;
    let mut time = foreign::Timespec {
        seconds: 0,
        nanoseconds: 0,
    };
    // SAFETY: `time` has the layout of the C type on 64-bit Linux.
    let status = unsafe { foreign::clock_gettime(CLOCK_PROCESS_CPUTIME_ID, &mut time) };
    assert_eq!(status, 0, "clock_gettime");
    time.seconds as f64 * 1e9 + time.nanoseconds as f64
}

/// Large blocks are taken from the heap, and the heap is never given back.
pub fn keep_heap() {
    const M_TRIM_THRESHOLD: i32 = -1;
    const M_MMAP_THRESHOLD: i32 = -3;
    for parameter in [M_TRIM_THRESHOLD, M_MMAP_THRESHOLD] {
        // SAFETY: both are parameters of the C library's allocator.
        let status = unsafe { foreign::mallopt(parameter, i32::MAX) };
        assert_eq!(status, 1, "mallopt");
    }
}
