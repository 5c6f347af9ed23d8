//! Processor time of this thread, so that other work on the machine counts as little as it can; elsewhere than on Linux the wall clock.

use std::time::Duration;

#[cfg(target_os = "linux")]
mod thread {
    #[repr(C)]
    struct Timespec {
        seconds: i64,
        nanoseconds: i64,
    }

    extern "C" {
        fn clock_gettime(clock: i32, time: *mut Timespec) -> i32;
    }

    const THREAD_PROCESSOR_TIME: i32 = 3;

    pub fn now() -> std::time::Duration {
        let mut time = Timespec { seconds: 0, nanoseconds: 0 };
        // The call writes one Timespec, and fails only for a clock that is not there.
        unsafe { clock_gettime(THREAD_PROCESSOR_TIME, &mut time) };
        std::time::Duration::new(time.seconds as u64, time.nanoseconds as u32)
    }
}

#[cfg(not(target_os = "linux"))]
mod thread {
    pub fn now() -> std::time::Duration {
        std::time::SystemTime::now().duration_since(std::time::UNIX_EPOCH).unwrap_or_default()
    }
}

/// Time since some fixed moment; only differences mean something.
pub fn now() -> Duration {
    thread::now()
}
