// The times of rounds, of which the one in the middle is taken. What is compared takes turns, so that a busy machine disturbs all alike;
// and the time is that of the processor in this thread, in which other programs have no part.
use std::ffi::{c_int, c_long};
use std::hint::black_box;

pub const ROUNDS: usize = 15;

/// C's `struct timespec`, on Linux of 64 bits.
#[repr(C)]
struct Moment {
    seconds: c_long,
    nanoseconds: c_long,
}

const THREAD: c_int = 3; // CLOCK_THREAD_CPUTIME_ID

extern "C" {
    fn clock_gettime(clock: c_int, moment: *mut Moment) -> c_int;
}

fn now() -> f64 {
    let mut moment = Moment { seconds: 0, nanoseconds: 0 };
    assert_eq!(unsafe { clock_gettime(THREAD, &mut moment) }, 0);
    moment.seconds as f64 + moment.nanoseconds as f64 / 1e9
}

/// A thing to do over and over, which says how many seconds it took.
pub type Work<'a> = Box<dyn FnMut() -> f64 + 'a>;

/// What it answers counts as used, so that nothing of it can be left out.
fn seconds<A>(answer: impl FnOnce() -> A) -> f64 {
    let start = now();
    black_box(answer());
    now() - start
}

pub fn work<'a, A>(mut answer: impl FnMut() -> A + 'a) -> Work<'a> {
    Box::new(move || seconds(&mut answer))
}

/// The same with a buffer of so many bytes, which is cleared each time before the time counts.
pub fn cleared<'a, A>(room: usize, mut answer: impl FnMut(&mut [u8]) -> A + 'a) -> Work<'a> {
    let mut out = vec![0; room];
    Box::new(move || {
        out.fill(0);
        seconds(|| answer(black_box(&mut out)))
    })
}

/// The seconds of each in the middle one of all rounds, by their length.
pub fn medians(works: &mut [Work]) -> Vec<f64> {
    let mut times = vec![Vec::new(); works.len()];
    for _ in 0..ROUNDS {
        for (work, times) in works.iter_mut().zip(&mut times) {
            times.push(work());
        }
    }
    times.iter_mut().for_each(|all| all.sort_by(f64::total_cmp));
    times.iter().map(|all| all[ROUNDS / 2]).collect()
}
