//! Processor time: the least of many samples, with contenders taking turns.

use std::{
    ffi::{c_int, c_long},
    time::Duration,
};

#[repr(C)]
struct Timespec {
    seconds: c_long,
    nanoseconds: c_long,
}

extern "C" {
    fn clock_gettime(clock: c_int, time: *mut Timespec) -> c_int;
}

/// The processor time of this thread, in nanoseconds: what runs beside it does not count.
fn now() -> f64 {
    const CLOCK_THREAD_CPUTIME_ID: c_int = 3;
    let mut time = Timespec { seconds: 0, nanoseconds: 0 };
    // SAFETY: the pointer is to a live timespec, as C has it on x86-64 Linux.
    let answer = unsafe { clock_gettime(CLOCK_THREAD_CPUTIME_ID, &mut time) };
    assert_eq!(answer, 0, "the thread has a clock");
    time.seconds as f64 * 1e9 + time.nanoseconds as f64
}

/// How many samples there are at least, so that a long call too has one that nothing disturbed.
const SAMPLES: u32 = 60;

/// One call, in nanoseconds: the mean of as many calls as make a sample.
fn sample(calls: u32, call: &mut dyn FnMut()) -> f64 {
    let start = now();
    for _ in 0..calls {
        call();
    }
    (now() - start) / f64::from(calls)
}

/// How many calls make a sample of at least this length.
fn calls_in_a_sample(length: Duration, call: &mut dyn FnMut()) -> u32 {
    let mut calls = 1;
    while sample(calls, call) * f64::from(calls) < length.as_nanos() as f64 {
        calls *= 2;
    }
    calls
}

/// Nanoseconds of a call of each contender: the least of the samples of 200 microseconds that fit into `each`. They take turns, so that what disturbs
/// the machine disturbs them all.
pub fn in_turns(each: Duration, contenders: &mut [&mut dyn FnMut()]) -> Vec<f64> {
    by_samples(Duration::from_micros(200), each, SAMPLES, contenders)
}

/// The same for one lot of several: a part of the samples.
pub fn in_turns_of_a_lot(each: Duration, contenders: &mut [&mut dyn FnMut()]) -> Vec<f64> {
    by_samples(Duration::from_micros(200), each, SAMPLES / 3, contenders)
}

/// The same by samples of two milliseconds: calls in a row, for which what another contender left in the caches is a small part.
pub fn in_a_row(each: Duration, contenders: &mut [&mut dyn FnMut()]) -> Vec<f64> {
    by_samples(Duration::from_millis(2), each, SAMPLES, contenders)
}

/// The least of the samples of a length, so many at least.
fn by_samples(length: Duration, each: Duration, least_samples: u32, contenders: &mut [&mut dyn FnMut()]) -> Vec<f64> {
    let calls: Vec<u32> = contenders.iter_mut().map(|c| calls_in_a_sample(length, *c)).collect();
    let mut least = vec![f64::INFINITY; contenders.len()];
    let until = now() + each.as_nanos() as f64 * contenders.len() as f64;
    let mut rounds = 0;
    while rounds < least_samples || now() < until {
        for ((contender, calls), least) in contenders.iter_mut().zip(&calls).zip(&mut least) {
            *least = least.min(sample(*calls, *contender));
        }
        rounds += 1;
    }
    least
}

/// Nanoseconds of one call; the least of up to five, as long as they fit into `within`.
pub fn bounded(within: Duration, mut call: impl FnMut()) -> f64 {
    let until = now() + within.as_nanos() as f64;
    let mut least = sample(1, &mut call);
    for _ in 1..5 {
        if now() + least > until {
            break;
        }
        least = least.min(sample(1, &mut call));
    }
    least
}
