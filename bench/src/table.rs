//! The table of times: one side's, another's, and how many times faster the second is. Times are this thread's on the processor, so that other
//! work on the machine counts for less.

use std::hint::black_box;
use std::time::Duration;

pub fn head(one: &str, other: &str) {
    let (one, other, ratio) = (format!("{one} µs"), format!("{other} µs"), "ratio");
    println!("\n{:<56} {one:>14} {other:>12} {ratio:>8}", "");
}

/// One line of the table: the best of several rounds of each, turn by turn.
pub fn row<R, O>(
    what: &str,
    rounds: usize,
    mut one: impl FnMut() -> R,
    mut other: impl FnMut() -> O,
) {
    let (many, often) = (batch(&mut one), batch(&mut other));
    let (mut first, mut second) = (Duration::MAX, Duration::MAX);
    for _ in 0..rounds {
        first = first.min(time(many, &mut one));
        second = second.min(time(often, &mut other));
    }
    let first = first.as_secs_f64() * 1e6 / f64::from(many);
    let second = second.as_secs_f64() * 1e6 / f64::from(often);
    println!(
        "{what:<56} {first:>14.1} {second:>12.1} {:>8.2}",
        first / second
    );
}

/// The best of several rounds of one call, in seconds.
pub fn best<T>(rounds: usize, mut call: impl FnMut() -> T) -> f64 {
    bests(rounds, 1, |_| call())[0]
}

/// The best of several rounds of each of so many calls, turn by turn, in seconds.
pub fn bests<T>(rounds: usize, calls: usize, mut call: impl FnMut(usize) -> T) -> Vec<f64> {
    let batches: Vec<u32> = (0..calls).map(|place| batch(&mut || call(place))).collect();
    let mut least = vec![Duration::MAX; calls];
    for _ in 0..rounds {
        for (place, (least, &many)) in least.iter_mut().zip(&batches).enumerate() {
            *least = time(many, &mut || call(place)).min(*least);
        }
    }
    let each = least.into_iter().zip(batches);
    each.map(|(least, many)| least.as_secs_f64() / f64::from(many))
        .collect()
}

/// The best of several rounds of each of so many calls, in seconds: each is made once in a round, in this order, since the next one finds
/// what it leaves.
pub fn turns<T>(rounds: usize, calls: usize, mut call: impl FnMut(usize) -> T) -> Vec<f64> {
    let mut least = vec![Duration::MAX; calls];
    for _ in 0..rounds {
        for (place, least) in least.iter_mut().enumerate() {
            *least = time(1, &mut || call(place)).min(*least);
        }
    }
    least.iter().map(Duration::as_secs_f64).collect()
}

/// How many calls take about half a millisecond, so that reading the clock counts for nothing.
fn batch<T>(call: &mut impl FnMut() -> T) -> u32 {
    let once = time(1, call).as_nanos().max(1);
    u32::try_from(500_000 / once).unwrap_or(1).max(1)
}

fn time<T>(many: u32, call: &mut impl FnMut() -> T) -> Duration {
    let start = now();
    for _ in 0..many {
        black_box(call());
    }
    now() - start
}

#[repr(C)]
struct Timespec {
    seconds: i64,
    nanoseconds: i64,
}

unsafe extern "C" {
    fn clock_gettime(clock: i32, time: *mut Timespec) -> i32;
}

/// Linux's clock of the time that this thread has had.
const THREAD: i32 = 3;

fn now() -> Duration {
    let mut time = Timespec {
        seconds: 0,
        nanoseconds: 0,
    };
    assert_eq!(unsafe { clock_gettime(THREAD, &mut time) }, 0);
    Duration::new(time.seconds as u64, time.nanoseconds as u32)
}
