//! How the contenders are timed, and what is printed.

use std::io::Write;
use std::time::Duration;

/// The highest ratios to the ordinary 128-bit code that the door should have on an input: on the smaller scale, where
/// exact sums of 64 bits tell more of the signs, and on the larger, where an estimate in doubles tells most of them.
pub type Goals = [f64; 2];
/// What stands for the time of 64-bit code where it would overflow, and so is not asked.
const NOT_ASKED: f64 = f64::INFINITY;

/// Linux's number of the clock that goes while a processor works for this process: CLOCK_PROCESS_CPUTIME_ID.
const PROCESS_CLOCK: i32 = 2;

/// A time as Linux gives it on processors of 64 bits: C's `struct timespec`.
#[repr(C)]
struct ClockTime {
    seconds: i64,
    nanoseconds: i64,
}

// The C library's, which the standard library of Rust is linked with.
unsafe extern "C" {
    fn clock_gettime(clock: i32, time: *mut ClockTime) -> i32;
}

/// The processor's time that this process has taken so far, and not the wall's. The wall's clock goes on while
/// other work has the processor: that is added to a contender that takes longer than its turn on the processor,
/// and not to one that is done within it, so that under load the ratio would flatter the shorter call.
fn process_time() -> Duration {
    let mut time = ClockTime {
        seconds: 0,
        nanoseconds: 0,
    };
    // SAFETY: the pointer leads to a time laid out as C has it, and nothing else uses it meanwhile.
    let result = unsafe { clock_gettime(PROCESS_CLOCK, &mut time) };
    assert_eq!(result, 0, "the clock of the process can't be read");
    Duration::new(time.seconds as u64, time.nanoseconds as u32)
}

/// The contenders take turns, each once a round. Of the rounds each one's best counts, which other
/// work on the machine has disturbed least.
pub fn best_of<const CONTENDERS: usize>(
    rounds: usize,
    mut round: impl FnMut() -> [f64; CONTENDERS],
) -> [f64; CONTENDERS] {
    let mut best = [f64::INFINITY; CONTENDERS];
    for _ in 0..rounds {
        let times = round();
        best = std::array::from_fn(|k| best[k].min(times[k]));
    }
    best
}

/// What a piece of work over so many pairs, or calls, takes of the processor for each.
pub fn nanoseconds_each(count: usize, work: impl FnOnce()) -> f64 {
    let start = process_time();
    work();
    (process_time() - start).as_nanos() as f64 / count as f64
}

/// The time of 64-bit code, which is taken only where no number is beyond NARROW.
pub fn narrow_time(is_narrow: bool, time: impl FnOnce() -> f64) -> f64 {
    if is_narrow {
        time()
    } else {
        NOT_ASKED
    }
}

/// The time of the 64-bit code and its ratio to the 128-bit code, with so many decimal places, if it was asked.
pub fn told_narrow(narrow: f64, wide: f64, places: usize) -> String {
    if narrow == NOT_ASKED {
        return "64-bit -".into();
    }
    format!("64-bit {narrow:.places$} ns, ratio {:.places$}", narrow / wide)
}

/// A reader that stops listening must not change the exit status, so a failed write is passed over.
pub fn say(line: &str) {
    let _ = writeln!(std::io::stdout(), "{line}");
}

/// The last line to print of inputs that were compared and timed. It is an error where each goal has to
/// be reached and one is not.
pub fn last_line(what: &str, reached: usize, inputs: usize, goals: bool) -> Result<String, String> {
    let line = format!("all {what} agree; {reached} of {inputs} goals are reached");
    if goals && reached < inputs {
        return Err(line);
    }
    Ok(line)
}
