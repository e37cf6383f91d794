//! Times, the shortest of some.
use std::hint::black_box;
use std::time::{Duration, Instant};

pub fn timed<T>(run: impl FnOnce() -> T) -> (Duration, T) {
    let start = Instant::now();
    let value = black_box(run());
    (start.elapsed(), value)
}

/// The shortest of five times of each, one after the other in turn.
pub fn compare(name: &str, mut rattle: impl FnMut() -> (Duration, u64), mut rust: impl FnMut() -> (Duration, u64)) {
    let mut best = [Duration::MAX; 2];
    for _ in 0..5 {
        let (time, value) = rattle();
        let (other, same) = rust();
        assert_eq!(value, same, "{name}: the two differ");
        best = [best[0].min(time), best[1].min(other)];
    }
    println!(
        "{name:<40} rattle {:>10.3} ms   rust {:>10.3} ms   ratio {:.2}",
        best[0].as_secs_f64() * 1e3,
        best[1].as_secs_f64() * 1e3,
        best[0].as_secs_f64() / best[1].as_secs_f64()
    );
}

/// A size that the system tells of this process, in bytes.
pub fn memory(name: &str) -> Option<u64> {
    let status = std::fs::read_to_string("/proc/self/status").ok()?;
    let line = status
        .lines()
        .find_map(|line| line.strip_prefix(name)?.strip_prefix(':'))?;
    let kilobytes: u64 = line.trim().strip_suffix(" kB")?.parse().ok()?;
    Some(kilobytes * 1024)
}

/// The processor time that this process has taken, which doesn't grow while others run.
pub fn processor_time() -> Duration {
    #[repr(C)]
    struct Time {
        seconds: i64,
        nanoseconds: i64,
    }
    unsafe extern "C" {
        fn clock_gettime(clock: i32, time: *mut Time) -> i32;
    }
    const PROCESS: i32 = 2;
    let mut time = Time { seconds: 0, nanoseconds: 0 };
    let status = unsafe { clock_gettime(PROCESS, &mut time) };
    assert_eq!(status, 0, "no clock of the process");
    Duration::new(time.seconds as u64, time.nanoseconds as u32)
}
