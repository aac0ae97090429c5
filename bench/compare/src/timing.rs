//! Times two pieces of work alternately.

use std::time::{Duration, Instant};

/// What a clock reads. Within one process the time that this thread had a processor is measured,
/// so that other work on the machine counts little; for programs it is the time that passes.
#[derive(Clone, Copy)]
pub enum Clock {
    Thread,
    Wall,
}

impl Clock {
    fn time(self, work: impl FnOnce()) -> Duration {
        match self {
            Clock::Thread => {
                let before = thread_time();
                work();
                thread_time() - before
            }
            Clock::Wall => {
                let before = Instant::now();
                work();
                before.elapsed()
            }
        }
    }
}

fn thread_time() -> Duration {
    #[repr(C)]
    struct Timespec {
        seconds: i64,
        nanoseconds: i64,
    }
    extern "C" {
        fn clock_gettime(clock: i32, time: *mut Timespec) -> i32;
    }
    const CLOCK_THREAD_CPUTIME_ID: i32 = 3;
    let mut time = Timespec { seconds: 0, nanoseconds: 0 };
    let status = unsafe { clock_gettime(CLOCK_THREAD_CPUTIME_ID, &mut time) };
    assert!(status == 0, "no clock for the thread's time");
    Duration::new(time.seconds as u64, time.nanoseconds as u32)
}

/// Each piece of work is timed so often.
const SAMPLES: usize = 25;
/// A sample repeats its work until it takes at least so long.
const LEAST: Duration = Duration::from_millis(5);

/// What the samples of one side come to, in nanoseconds for one time the work is done.
#[derive(Clone, Copy)]
pub struct Samples {
    pub median: f64,
    pub least: f64,
}

impl Samples {
    fn of(mut samples: Vec<f64>) -> Samples {
        samples.sort_by(f64::total_cmp);
        Samples { median: samples[samples.len() / 2], least: samples[0] }
    }

    fn each(self, parts: f64) -> Samples {
        Samples { median: self.median / parts, least: self.least / parts }
    }
}

/// Both sides. What else runs on the machine makes a sample longer and never shorter, so the least
/// is nearest to what the work takes by itself, if the machine was quiet at all; where it was so
/// for one side only, the ratio of the least times misleads.
#[derive(Clone, Copy)]
pub struct Times {
    pub plain: Samples,
    pub proved: Samples,
}

impl Times {
    /// Rust time / our time, by the medians: 1 is as fast as plain Rust, less is slower.
    pub fn ratio(self) -> f64 {
        self.plain.median / self.proved.median
    }

    /// The same by the least times.
    pub fn least_ratio(self) -> f64 {
        self.plain.least / self.proved.least
    }

    /// For one of so many parts.
    pub fn each(self, parts: usize) -> Times {
        let parts = parts.max(1) as f64;
        Times { plain: self.plain.each(parts), proved: self.proved.each(parts) }
    }
}

/// The two take turns, and take turns in going first.
pub fn alternately(clock: Clock, mut plain: impl FnMut(), mut proved: impl FnMut()) -> Times {
    let plain_repeats = repeats(clock, &mut plain);
    let proved_repeats = repeats(clock, &mut proved);
    let (mut plain_samples, mut proved_samples) = (Vec::new(), Vec::new());
    for turn in 0..SAMPLES {
        if turn % 2 == 0 {
            plain_samples.push(sample(clock, &mut plain, plain_repeats));
            proved_samples.push(sample(clock, &mut proved, proved_repeats));
        } else {
            proved_samples.push(sample(clock, &mut proved, proved_repeats));
            plain_samples.push(sample(clock, &mut plain, plain_repeats));
        }
    }
    Times { plain: Samples::of(plain_samples), proved: Samples::of(proved_samples) }
}

/// How often the work is repeated in one sample. The first time warms up.
fn repeats(clock: Clock, work: &mut impl FnMut()) -> u32 {
    work();
    let mut repeats = 1;
    while repeated(clock, work, repeats) < LEAST {
        repeats *= 2;
    }
    repeats
}

fn sample(clock: Clock, work: &mut impl FnMut(), repeats: u32) -> f64 {
    repeated(clock, work, repeats).as_nanos() as f64 / f64::from(repeats)
}

fn repeated(clock: Clock, work: &mut impl FnMut(), repeats: u32) -> Duration {
    clock.time(|| (0..repeats).for_each(|_| work()))
}
