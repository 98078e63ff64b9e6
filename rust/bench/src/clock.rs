//! The processor time that this thread has had. On a machine that others use too, a sample during which the system lets them run is
//! then no longer than any other. Rust's own clocks tell the time of day only, so the system is asked; all unsafe code is here.

use std::time::Duration;

#[cfg(all(target_os = "linux", target_pointer_width = "64"))]
pub fn now() -> Duration {
    #[repr(C)]
    struct Timespec {
        seconds: i64,
        nanoseconds: i64,
    }
    // The number that Linux has for the clock of a thread, on every processor.
    const THREAD: i32 = 3;
    unsafe extern "C" {
        fn clock_gettime(clock: i32, time: *mut Timespec) -> i32;
    }
    let mut time = Timespec {
        seconds: 0,
        nanoseconds: 0,
    };
    // SAFETY: the system's function writes the two numbers that it is lent, and nothing else.
    let refused = unsafe { clock_gettime(THREAD, &mut time) };
    assert_eq!(refused, 0, "the system tells no processor time");
    Duration::new(time.seconds as u64, time.nanoseconds as u32)
}

/// Elsewhere the time of day has to do.
#[cfg(not(all(target_os = "linux", target_pointer_width = "64")))]
pub fn now() -> Duration {
    use std::sync::OnceLock;
    use std::time::Instant;
    static START: OnceLock<Instant> = OnceLock::new();
    START.get_or_init(Instant::now).elapsed()
}

#[cfg(test)]
mod tests {
    use super::*;

    #[test]
    fn work_takes_processor_time() {
        let start = now();
        let mut turns = 0_u64;
        while now() - start < Duration::from_millis(1) {
            turns += 1;
        }
        assert!(turns > 0);
    }
}
