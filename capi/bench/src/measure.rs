//! Times of several subjects, taken in turn, so that a machine that slows down does so for all of them. What is counted is the processor's time: other
//! programs on the machine have no part in it.
use std::time::{Duration, Instant};

/// C's timespec and timeval, on Linux with 64 bits: seconds, and billionths or millionths of one.
#[derive(Default)]
#[repr(C)]
struct Clock {
    seconds: i64,
    fraction: i64,
}

/// C's rusage.
#[derive(Default)]
#[repr(C)]
struct Usage {
    user: Clock,
    system: Clock,
    other: [i64; 14],
}

/// Linux's CLOCK_THREAD_CPUTIME_ID and RUSAGE_CHILDREN.
const THREAD: i32 = 3;
const CHILDREN: i32 = -1;

extern "C" {
    fn clock_gettime(clock: i32, time: *mut Clock) -> i32;
    fn getrusage(who: i32, usage: *mut Usage) -> i32;
}

/// The processor's time for this thread so far.
pub fn thread_time() -> Duration {
    let mut time = Clock::default();
    // SAFETY: the pointer is to a timespec of this function's own.
    let status = unsafe { clock_gettime(THREAD, &mut time) };
    assert_eq!(status, 0, "no clock of the thread's time");
    Duration::new(time.seconds as u64, time.fraction as u32)
}

/// The processor's time for all processes that this one has waited for.
pub fn children_time() -> Duration {
    let mut usage = Usage::default();
    // SAFETY: the pointer is to an rusage of this function's own.
    let status = unsafe { getrusage(CHILDREN, &mut usage) };
    assert_eq!(status, 0, "no clock of the children's time");
    let time = |clock: Clock| Duration::new(clock.seconds as u64, 1000 * clock.fraction as u32);
    time(usage.user) + time(usage.system)
}

/// One subject: what is timed.
pub type Subject<'a> = Box<dyn FnMut() + 'a>;

/// The median and the best of some times, in seconds.
#[derive(Clone, Copy)]
pub struct Time {
    pub median: f64,
    pub best: f64,
}

impl Time {
    fn of(mut samples: Vec<f64>) -> Time {
        samples.sort_by(f64::total_cmp);
        Time {
            median: samples[samples.len() / 2],
            best: samples[0],
        }
    }

    /// The time of one of `count` equal parts.
    pub fn part(self, count: usize) -> Time {
        Time {
            median: self.median / count as f64,
            best: self.best / count as f64,
        }
    }
}

/// A sample of very short subjects is of several calls, for the clock's sake.
const SAMPLE: Duration = Duration::from_micros(100);

/// How long a group of subjects is sampled, and how often at least and at most.
#[derive(Clone, Copy)]
pub struct Effort {
    pub time: Duration,
    pub least: usize,
    pub most: usize,
}

fn timed(subject: &mut Subject, calls: u32) -> Duration {
    let start = thread_time();
    for _ in 0..calls {
        subject();
    }
    thread_time() - start
}

/// Runs each subject once unmeasured, then samples all of them in turn.
pub fn interleaved(effort: Effort, mut subjects: Vec<Subject>) -> Vec<Time> {
    let calls: Vec<u32> = subjects
        .iter_mut()
        .map(|subject| {
            timed(subject, 1);
            let once = timed(subject, 1).max(Duration::from_nanos(50));
            (SAMPLE.as_nanos() / once.as_nanos()) as u32 + 1
        })
        .collect();
    let mut samples = vec![Vec::new(); subjects.len()];
    let start = Instant::now();
    for count in 0..effort.most {
        if count >= effort.least && start.elapsed() > effort.time {
            break;
        }
        for (i, subject) in subjects.iter_mut().enumerate() {
            let time = timed(subject, calls[i]);
            samples[i].push(time.as_secs_f64() / f64::from(calls[i]));
        }
    }
    samples.into_iter().map(Time::of).collect()
}

/// A subject that changes what it works on, or that runs beside one that does.
pub trait Restored {
    /// Copies all that it works on anew. This is not timed.
    fn restore(&mut self);

    fn run(&mut self);
}

/// Restores and runs each subject once unmeasured, then samples both in turn, a run at a time.
pub fn restored(effort: Effort, mut subjects: [&mut dyn Restored; 2]) -> [Time; 2] {
    let mut samples = [Vec::new(), Vec::new()];
    let start = Instant::now();
    for count in 0..=effort.most {
        if count > effort.least && start.elapsed() > effort.time {
            break;
        }
        for (subject, samples) in subjects.iter_mut().zip(&mut samples) {
            subject.restore();
            let start = thread_time();
            subject.run();
            let time = thread_time() - start;
            if count > 0 {
                samples.push(time.as_secs_f64());
            }
        }
    }
    samples.map(Time::of)
}
