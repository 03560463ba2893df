//! Texts of the greatest length to be timed, and the speed at the median of many runs.

use crate::tokens::TEXT_BYTES;
use std::hint::black_box;
use std::time::{Duration, Instant};

pub const BYTES: usize = TEXT_BYTES as usize;

/// A text up to the last line that fits, filled up with blanks.
pub fn whole_lines(mut text: Vec<u8>) -> String {
    text.truncate(BYTES);
    let end = text.iter().rposition(|&byte| byte == b'\n').expect("there are many lines");
    text[end..].fill(b' ');
    String::from_utf8(text).expect("a line ends between characters")
}

/// A start and the same part after it as often as it fits, filled up with blanks.
pub fn repeated(start: &str, part: &str) -> String {
    let mut text = start.to_owned() + &part.repeat((BYTES - start.len()) / part.len());
    text.extend(std::iter::repeat_n(' ', BYTES - text.len()));
    text
}

pub fn timed<T>(run: impl FnOnce() -> T) -> Duration {
    let start = Instant::now();
    black_box(run());
    start.elapsed()
}

/// The processor's time of this thread, in which others that run on the same machine do not count.
pub fn processor_timed<T>(run: impl FnOnce() -> T) -> Duration {
    let start = processor_time();
    black_box(run());
    processor_time() - start
}

fn processor_time() -> Duration {
    unsafe extern "C" {
        fn clock_gettime(clock: i32, time: *mut [i64; 2]) -> i32;
    }
    const THREAD: i32 = 3;
    let mut time = [0; 2];
    // Seconds and nanoseconds, each in 64 bits on the machines that our library is for.
    let failed = unsafe { clock_gettime(THREAD, &mut time) };
    assert_eq!(failed, 0, "a thread has a clock");
    Duration::new(time[0] as u64, time[1] as u32)
}

/// Megabytes a second at the median time, which a few disturbed runs do not move.
pub fn speed(text: &str, mut times: Vec<Duration>) -> f64 {
    times.sort();
    text.len() as f64 / 1e6 / times[times.len() / 2].as_secs_f64()
}
