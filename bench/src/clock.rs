//! Time: what a work costs the processor, the least of several runs.
use std::hint::black_box;
use std::time::Duration;

#[repr(C)]
struct Timespec {
    seconds: i64,
    nanoseconds: i64,
}

unsafe extern "C" {
    fn clock_gettime(clock: i32, time: *mut Timespec) -> i32;
}

// Linux: the processor time of the calling thread, so that other programs' turns on the processor don't count
const THREAD_CPUTIME: i32 = 3;

fn now() -> Duration {
    let mut time = Timespec { seconds: 0, nanoseconds: 0 };
    // SAFETY: the pointer is a local's, of the struct that 64-bit Linux fills
    let failed = unsafe { clock_gettime(THREAD_CPUTIME, &mut time) };
    assert_eq!(failed, 0, "this system has no clock of a thread's processor time");
    Duration::new(time.seconds as u64, time.nanoseconds as u32)
}

// A shorter work is repeated until it takes this long: the clock itself costs under a microsecond.
const LEAST: f64 = 0.002;

fn repeats(work: &mut dyn FnMut()) -> u32 {
    let start = now();
    work();
    let once = (now() - start).as_secs_f64();
    (LEAST / once.max(1e-9)).ceil() as u32
}

/// The least time of each work in seconds. They run in turns, so that a slow moment of the machine meets all of them.
pub fn in_turns<const N: usize>(rounds: usize, mut works: [&mut dyn FnMut(); N]) -> [f64; N] {
    let mut repeat = [1; N];
    for (r, work) in repeat.iter_mut().zip(&mut works) {
        *r = repeats(work);
    }
    let mut least = [f64::INFINITY; N];
    for _ in 0..rounds {
        for k in 0..N {
            let start = now();
            for _ in 0..repeat[k] {
                works[k]();
            }
            let each = (now() - start).as_secs_f64() / f64::from(repeat[k]);
            least[k] = least[k].min(each);
        }
    }
    least
}

/// Ends a work: its answer is used, as far as the compiler knows, and let go.
pub fn ran<T>(answer: T) {
    drop(black_box(answer));
}
