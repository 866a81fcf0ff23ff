//! Medians of repeated, interleaved runs.

use std::ffi::{c_int, c_long};
use std::hint::black_box;

#[repr(C)]
struct Time {
    seconds: i64,
    nanos: c_long,
}

unsafe extern "C" {
    fn clock_gettime(clock: c_int, time: *mut Time) -> c_int;
}

/// The processor time of this thread, in seconds, so that other processes count for little.
fn now() -> f64 {
    const THREAD: c_int = 3;
    let mut time = Time { seconds: 0, nanos: 0 };
    assert!(unsafe { clock_gettime(THREAD, &mut time) } == 0);
    time.seconds as f64 + time.nanos as f64 * 1e-9
}

/// How often a way has to run so that it takes two milliseconds or more.
fn turns(way: &mut dyn FnMut() -> f64) -> usize {
    let mut turns = 1;
    loop {
        if time(way, turns) * turns as f64 > 0.002 {
            return turns;
        }
        turns *= 2;
    }
}

fn time(way: &mut dyn FnMut() -> f64, turns: usize) -> f64 {
    let start = now();
    for _ in 0..turns {
        black_box(way());
    }
    (now() - start) / turns as f64
}

/// The median time of each way. In each round every way runs once, in turn.
pub fn medians<const N: usize>(rounds: usize, mut ways: [&mut dyn FnMut() -> f64; N]) -> [f64; N] {
    let counts = ways.each_mut().map(|way| turns(*way));
    let mut times = [const { Vec::new() }; N];
    for _ in 0..rounds {
        for ((way, count), found) in ways.iter_mut().zip(counts).zip(&mut times) {
            found.push(time(*way, count));
        }
    }
    times.map(|mut found| {
        found.sort_by(f64::total_cmp);
        found[found.len() / 2]
    })
}
