// Times of calls, in microseconds.
use std::hint::black_box;
use std::time::Instant;

// The mean time of some calls of f.
pub fn time(calls: usize, f: impl Fn() -> i64) -> f64 {
    let start = Instant::now();
    for _ in 0..calls {
        black_box(f());
    }
    start.elapsed().as_secs_f64() * 1e6 / calls as f64
}

// Lowers the least time of f so far by one more round, of as many calls as fill the span.
pub fn round(least: &mut f64, span: f64, f: impl Fn() -> i64) {
    let calls = (span / least.max(0.01)).clamp(1.0, 1000.0) as usize;
    *least = least.min(time(calls, f));
}

// Runs f with so many more kilobytes of the stack in use.
fn deeper(kilobytes: usize, f: &mut dyn FnMut()) {
    let room = [0u8; 1024];
    match kilobytes {
        0 => f(),
        _ => deeper(kilobytes - 1, f),
    }
    black_box(&room);
}

// Runs pass f at a depth of the stack of its own. Where all passes had one depth, in one process of a hundred one build of
// Sweep took up to twice its time, at one depth and not some kilobytes below. Why is not known.
pub fn at_depth(pass: usize, f: &mut dyn FnMut()) {
    deeper(8 * pass, f);
}

// The mean of some numbers.
pub fn mean(times: &[f64]) -> f64 {
    times.iter().sum::<f64>() / times.len() as f64
}

// What a move costs on the way from one length of a route to the next, from the mean times at these lengths, with so
// many digits: as much each time, if the cost is linear.
pub fn slopes(means: &[f64], lengths: &[usize], digits: usize) -> String {
    let mut words = Vec::new();
    for (ends, lengths) in means.windows(2).zip(lengths.windows(2)) {
        let moves = (lengths[1] - lengths[0]) as f64;
        words.push(format!("{:.digits$}", (ends[1] - ends[0]) / moves));
    }
    words.join(" ")
}

// The largest of some numbers.
pub fn worst(times: &[f64]) -> f64 {
    times.iter().copied().fold(0.0, f64::max)
}

// The number in the middle, or half way between the two in the middle.
pub fn median(numbers: &[f64]) -> f64 {
    let mut sorted = numbers.to_vec();
    sorted.sort_by(f64::total_cmp);
    let n = sorted.len();
    (sorted[(n - 1) / 2] + sorted[n / 2]) / 2.0
}
