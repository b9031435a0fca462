//! How soon a thread runs that was just started, and what a round of four equal parts in four threads takes beside the
//! parts one after another.
use std::env::args;
use std::hint::black_box;
use std::thread::scope;
use std::time::{Duration, Instant};

const PARTS: usize = 4;

/// Works for as long as so many steps take.
fn work(steps: u64) {
    let mut sum = 0u64;
    for k in 0..steps {
        sum = black_box(sum.wrapping_add(k));
    }
    black_box(sum);
}

/// How many steps take so long, by the fastest of some tries.
fn steps_in(time: Duration) -> u64 {
    const TRIED: u64 = 1_000_000;
    let tried = || {
        let begun = Instant::now();
        work(TRIED);
        begun.elapsed()
    };
    let least = (0..100).map(|_| tried()).min().unwrap();
    (time.as_secs_f64() / least.as_secs_f64() * TRIED as f64) as u64
}

/// A round: what one thread does, and then the parts, the last of them in the same thread. Returns when each other part
/// began, and how long all took.
fn round(alone: u64, part: u64) -> (Vec<Duration>, Duration) {
    let whole = Instant::now();
    work(alone);
    let mut began = Vec::new();
    scope(|s| {
        let started: Vec<_> = (1..PARTS)
            .map(|_| {
                let at = Instant::now();
                s.spawn(move || {
                    let began = at.elapsed();
                    work(part);
                    began
                })
            })
            .collect();
        work(part);
        began.extend(started.into_iter().map(|one| one.join().unwrap()));
    });
    (began, whole.elapsed())
}

/// What so many hundredths of the times don't exceed, in microseconds.
fn at(times: &mut Vec<Duration>, hundredths: usize) -> u128 {
    times.sort();
    times[(times.len() - 1) * hundredths / 100].as_micros()
}

fn main() {
    let given: Vec<u64> = args().skip(1).map(|word| word.parse().unwrap()).collect();
    let (alone, part, rounds) = (Duration::from_micros(given[0]), Duration::from_micros(given[1]), given[2]);
    let (alone_steps, part_steps) = (steps_in(alone), steps_in(part));
    let (mut began, mut whole) = (Vec::new(), Vec::new());
    for _ in 0..rounds {
        let (one, all) = round(alone_steps, part_steps);
        began.extend(one);
        whole.push(all);
    }
    let (median, most) = (at(&mut began, 50), at(&mut began, 90));
    println!("a started thread runs after {median} us at the median, {most} us in nine of ten cases");
    let (four, one) = ((alone + part).as_micros(), (alone + part * PARTS as u32).as_micros());
    let (least, median) = (at(&mut whole, 0), at(&mut whole, 50));
    println!(
        "a round of {one} us in one thread takes in four {least} us at the least, {median} us at the median; {four} us \
         if threads began at once"
    );
}
