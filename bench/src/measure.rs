//! Times in nanoseconds of this thread's processor time, which leaves out other programs that run beside it. The least of many short
//! ones is taken, since whatever else the machine does only adds to them.

/// How often things take turns in a pass.
const TIMES: usize = 12;

/// How many passes there are over all that is timed: a disturbance that lasts spoils only some of them.
pub const PASSES: usize = 5;

/// Linux's number of the clock that counts a thread's processor time.
const THREAD_PROCESSOR_TIME: i32 = 3;

/// C's `struct timespec` on 64-bit Linux.
#[repr(C)]
struct Time {
    seconds: i64,
    nanoseconds: i64,
}

unsafe extern "C" {
    fn clock_gettime(clock: i32, time: &mut Time) -> i32;
}

fn now() -> i64 {
    let mut time = Time { seconds: 0, nanoseconds: 0 };
    // SAFETY: the struct is C's, and the call writes nothing else.
    let status = unsafe { clock_gettime(THREAD_PROCESSOR_TIME, &mut time) };
    assert_eq!(status, 0, "the thread's clock cannot be read");
    time.seconds * 1_000_000_000 + time.nanoseconds
}

/// The least time of each of these, which take turns.
pub fn least<const N: usize>(mut works: [&mut dyn FnMut(); N]) -> [f64; N] {
    let mut least = [f64::INFINITY; N];
    for _ in 0..TIMES {
        for (work, least) in works.iter_mut().zip(&mut least) {
            let start = now();
            work();
            *least = least.min((now() - start) as f64);
        }
    }
    least
}

/// The lesser of each two.
pub fn lesser<const N: usize>(a: [f64; N], b: [f64; N]) -> [f64; N] {
    std::array::from_fn(|place| a[place].min(b[place]))
}
