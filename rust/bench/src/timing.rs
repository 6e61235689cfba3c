//! Exact room, and the least of many times.
use compare::room::Room;

/// S, by halving; 1,024 where S is greater, so that 11 is due.
pub fn set_rows(pattern: &[u8]) -> usize {
    let (mut few, mut enough) = (2, 1024);
    while few + 1 < enough {
        let middle = (few + enough) / 2;
        match Room::for_rows(middle).model(pattern) {
            Err((11, 0)) => few = middle,
            _ => enough = middle,
        }
    }
    enough
}

/// The microseconds for which this thread has had a processor: other programs count for less than by the clock on the wall.
fn now() -> f64 {
    // std has no call for this clock, the third of Linux
    extern "C" {
        fn clock_gettime(clock: i32, time: *mut [i64; 2]) -> i32;
    }
    let mut time = [0; 2];
    // SAFETY: the call writes seconds and nanoseconds, two numbers of 64 bits, and keeps no pointer
    let failed = unsafe { clock_gettime(3, &mut time) };
    assert_eq!(failed, 0, "a clock");
    time[0] as f64 * 1e6 + time[1] as f64 / 1e3
}

/// The microseconds that a call takes.
pub fn time(f: &mut dyn FnMut()) -> f64 {
    let from = now();
    f();
    now() - from
}

/// The least of the times of each in microseconds, taken in turn so that all see the same machine. What is short is timed some calls
/// at a time, so that reading the clock does not count.
pub fn least<const N: usize>(mut all: [&mut dyn FnMut(); N]) -> [f64; N] {
    let mut best = [f64::MAX; N];
    let calls = all.each_mut().map(|f| (100.0 / time(f)).clamp(1.0, 100.0) as usize);
    let from = now();
    let mut runs = 0;
    while runs < 20 || now() - from < 1e6 {
        for ((best, f), &calls) in best.iter_mut().zip(&mut all).zip(&calls) {
            *best = best.min(time(&mut || (0..calls).for_each(|_| f())) / calls as f64);
        }
        runs += 1;
    }
    best
}

/// The geometric mean.
pub fn mean(ratios: &[f64]) -> f64 {
    (ratios.iter().map(|r| r.ln()).sum::<f64>() / ratios.len() as f64).exp()
}
