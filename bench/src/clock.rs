//! Two clocks. A pass of the slow readers is longer than a time slice: by the wall's clock they would pay for other programs and the fast ones would not.
//! A pass of the UTF-8 check is far shorter, so the best of many has met no other program; it needs a clock that is exact for short times, as the wall's is.

/// Seconds and nanoseconds, as x86-64 Linux has them.
#[repr(C)]
struct Time {
    seconds: i64,
    nanoseconds: i64,
}

extern "C" {
    fn clock_gettime(clock: i32, time: *mut Time) -> i32;
}

const WALL: i32 = 1;
const THREAD: i32 = 3;

/// The processor time of this thread, in ns.
pub fn thread() -> i64 {
    now(THREAD)
}

/// The time that has gone by, in ns.
pub fn wall() -> i64 {
    now(WALL)
}

fn now(clock: i32) -> i64 {
    let mut time = Time { seconds: 0, nanoseconds: 0 };
    let failed = unsafe { clock_gettime(clock, &mut time) };
    assert_eq!(failed, 0, "the system has the clock");
    time.seconds * 1_000_000_000 + time.nanoseconds
}
