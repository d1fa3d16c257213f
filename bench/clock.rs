// The clock of the benchmarks.

extern "C" {
    fn clock_gettime(clock: i32, time: &mut Time) -> i32;
}

#[repr(C)]
struct Time {
    seconds: i64,
    nanoseconds: i64,
}

// Processor time of this process, in seconds: what others do on the machine counts for little.
pub fn now() -> f64 {
    let mut time = Time { seconds: 0, nanoseconds: 0 };
    assert_eq!(unsafe { clock_gettime(2, &mut time) }, 0);
    time.seconds as f64 + time.nanoseconds as f64 / 1e9
}
