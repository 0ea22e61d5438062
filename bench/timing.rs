// The time of a call: the median of several batches, the tasks taking turns so that a disturbance meets all alike.
use std::time::{Duration, Instant};

pub type Task<'a> = &'a mut dyn FnMut();

const BATCHES: usize = 101;
/// A batch has so many calls that it takes at least this time: little, so that on a busy machine most batches run undisturbed.
const BATCH: Duration = Duration::from_micros(500);

/// A call beside the original's, the test of the image with which it begins, and what it takes without that; in nanoseconds.
pub struct Parted {
    pub rust: f64,
    pub whole: f64,
    pub test: f64,
    pub after: f64,
}

/// Times a call of an image, a line and a buffer of that room. Its test of the image is timed within the call, by an empty line under the image less the same under
/// none: how long the test takes goes with where the call's stack lies. Each round gives one difference, so that a longer disturbance is in neither side of it.
pub fn parted(image: &[u8], line: &[u8], room: usize, mut rust: impl FnMut(), call: impl Fn(&[u8], &[u8], &mut [u8])) -> Parted {
    let [mut a, mut b, mut c] = [(); 3].map(|()| vec![0; room]);
    let tasks: [Task; 4] =
        [&mut rust, &mut || call(image, line, &mut a), &mut || call(image, b"", &mut b), &mut || call(b"", b"", &mut c)];
    let [rust, whole, tested, bare] = rounds(tasks);
    let test: Vec<f64> = tested.iter().zip(bare).map(|(tested, bare)| tested - bare).collect();
    let after = whole.iter().zip(&test).map(|(whole, test)| whole - test).collect();
    Parted { rust: median(rust), whole: median(whole), test: median(test), after: median(after) }
}

/// The nanoseconds that one call of each task takes.
pub fn medians<const N: usize>(tasks: [Task; N]) -> [f64; N] {
    rounds(tasks).map(median)
}

fn median(mut times: Vec<f64>) -> f64 {
    times.sort_by(f64::total_cmp);
    times[times.len() / 2]
}

/// The nanoseconds that one call of each task takes, round by round.
fn rounds<const N: usize>(mut tasks: [Task; N]) -> [Vec<f64>; N] {
    let counts = tasks.each_mut().map(|task| calls_for(BATCH, task));
    let mut times = [(); N].map(|()| Vec::new());
    for _ in 0..BATCHES {
        for ((task, &count), times) in tasks.iter_mut().zip(&counts).zip(&mut times) {
            // not timed: it finds caches as the task before left them
            task();
            times.push(batch(task, count).as_nanos() as f64 / count as f64);
        }
    }
    times
}

fn calls_for(least: Duration, task: &mut Task) -> u32 {
    let mut count = 1;
    while batch(task, count) < least {
        count *= 2;
    }
    count
}

fn batch(task: &mut Task, count: u32) -> Duration {
    let start = Instant::now();
    for _ in 0..count {
        task();
    }
    start.elapsed()
}
