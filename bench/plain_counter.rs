//! A plain counter of a cycle, as one writes it by hand: what bench/counter measures the proved one against.

use std::hint::black_box;
use std::time::Instant;

const TURNS: u32 = 1_000_000;

struct Plan {
    cycle: u32,
    window: u32,
}

#[derive(Clone, Copy)]
struct Limits {
    mode: u8,
    dwell: u32,
    add: u32,
    subtract: u32,
}

struct Count {
    counter: u32,
    stands: u32,
    skips: u32,
    changed: bool,
}

impl Count {
    fn step(&mut self, plan: &Plan, limits: Limits, target: u32) -> u32 {
        let old = self.counter;
        let later = if old + 1 == plan.cycle { 0 } else { old + 1 };
        let error = if target > old { target - old - 1 } else { target + plan.cycle - old - 1 };
        let adding = |count: &Count| if count.changed && count.stands < limits.add { old } else { later };
        let next = if error == 0 || old >= plan.window {
            later
        } else {
            match limits.mode {
                2 if old == 0 && self.stands < limits.dwell => 0,
                3 if (plan.cycle - error).div_ceil(limits.add) <= error.div_ceil(limits.subtract) => adding(self),
                3 if old + 2 <= plan.window && self.skips < limits.subtract => old + 2,
                4 => adding(self),
                _ => later,
            }
        };
        self.changed = next != old;
        if next == 0 && self.changed {
            self.stands = 0;
            self.skips = 0;
        } else if !self.changed {
            self.stands += 1;
        } else if next == old + 2 {
            self.skips += 1;
        }
        self.counter = next;
        next
    }
}

fn steps(plan: &Plan, limits: Limits) -> u32 {
    let mut count = Count { counter: 0, stands: 0, skips: 0, changed: true };
    let mut target = 0;
    let mut draw = 0u32;
    let mut sum = 0u32;
    for turn in 0..TURNS {
        target = if target + 1 == plan.cycle { 0 } else { target + 1 };
        if turn % 4096 == 0 {
            draw = draw.wrapping_mul(1_664_525).wrapping_add(1_013_904_223);
            target = (draw >> 16) % plan.cycle;
        }
        sum = sum.wrapping_add(count.step(plan, limits, target));
    }
    sum
}

fn main() {
    for _ in 0..100 {
        for (name, mode) in [("dwell", 2), ("shortway", 3), ("add only", 4)] {
            let plan = black_box(Plan { cycle: 900, window: 245 });
            let limits = black_box(Limits { mode, dwell: 100, add: 50, subtract: 30 });
            let begin = Instant::now();
            let sum = steps(&plan, limits);
            let picoseconds = begin.elapsed().as_nanos() / (TURNS as u128 / 1000);
            println!("plain {name}: {picoseconds} {sum}");
        }
    }
}
