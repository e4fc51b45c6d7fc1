//! Time that this program, or those it has started, spent on a processor. It stands still while others use the
//! processors, so that a busy machine does less harm.

use std::ffi::{c_int, c_long};
use std::mem::MaybeUninit;
use std::time::Duration;

/// The two numbers of a `timespec` and of a `timeval`: seconds, and nanoseconds or microseconds.
#[repr(C)]
struct Stamp {
    seconds: c_long,
    rest: c_long,
}

/// What `getrusage` tells, the times in user mode and in the kernel first.
#[repr(C)]
struct Usage {
    times: [Stamp; 2],
    others: [c_long; 14],
}

extern "C" {
    fn clock_gettime(clock: c_int, now: *mut Stamp) -> c_int;
    fn getrusage(who: c_int, usage: *mut Usage) -> c_int;
}

const THIS_THREAD: c_int = 3;
const CHILDREN: c_int = -1;

/// What this thread has spent so far.
pub fn own() -> Duration {
    let mut now = MaybeUninit::<Stamp>::uninit();
    // SAFETY: the call writes one `timespec`, which is whole where it gives 0.
    let now = unsafe {
        assert_eq!(clock_gettime(THIS_THREAD, now.as_mut_ptr()), 0);
        now.assume_init()
    };
    Duration::new(now.seconds as u64, now.rest as u32)
}

/// What the programs that this one has started, and that have ended, have spent so far.
pub fn of_children() -> Duration {
    let mut usage = MaybeUninit::<Usage>::uninit();
    // SAFETY: the call writes one `rusage`, two `timeval`s and fourteen numbers, which is whole where it gives 0.
    let Usage { times, .. } = unsafe {
        assert_eq!(getrusage(CHILDREN, usage.as_mut_ptr()), 0);
        usage.assume_init()
    };
    let spent = |time: &Stamp| Duration::new(time.seconds as u64, time.rest as u32 * 1_000);
    times.iter().map(spent).sum()
}

#[cfg(test)]
mod tests {
    use super::*;
    use std::hint::black_box;
    use std::process::Command;
    use std::thread::sleep;
    use std::time::Instant;

    #[test]
    fn the_clock_stands_still_while_the_thread_sleeps() {
        let begin = own();
        sleep(Duration::from_millis(60));
        assert!(own() - begin < Duration::from_millis(20));
    }

    #[test]
    fn the_clock_goes_on_while_the_thread_works() {
        let (begin, clock) = (own(), Instant::now());
        let all = (0..40_000_000u64).fold(0, |sum, n| black_box(sum ^ n));
        let spent = own() - begin;
        assert!(black_box(all) < u64::MAX);
        assert!(spent > Duration::from_millis(1), "{spent:?}");
        assert!(spent <= clock.elapsed(), "{spent:?}");
    }

    #[test]
    fn programs_that_were_started_are_counted() {
        let begin = of_children();
        let loops = "n=0; while [ $n -lt 20000 ]; do n=$((n+1)); done";
        let status = Command::new("sh").args(["-c", loops]).status();
        assert!(status.expect("a shell").success());
        assert!(of_children() - begin > Duration::from_millis(1));
    }
}
