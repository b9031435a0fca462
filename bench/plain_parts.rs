//! The parts of a tick in coordination as one writes them by hand: what bench/parts measures the proved ones against.
//! Prints picoseconds a call of each part, 300 times over.

use std::hint::black_box;
use std::time::Instant;

const PLANS: u32 = 2_000;

const FITS: u32 = 200_000;

#[derive(Clone, Copy)]
struct List {
    octets: [u8; 16],
    count: u8,
}

impl List {
    fn of(phases: &[u8]) -> List {
        let mut octets = [0; 16];
        octets[..phases.len()].copy_from_slice(phases);
        List { octets, count: phases.len() as u8 }
    }

    fn phases(&self) -> &[u8] {
        &self.octets[..self.count as usize]
    }
}

#[derive(Clone, Copy)]
struct Phase {
    walk: u8,
    pedestrian_clear: u8,
    minimum_green: u8,
    yellow_change: u8,
    red_clear: u8,
    options: u16,
    ring: u8,
    concurrency: List,
    // what else a row holds
    _rest: [u8; 16],
}

#[derive(Clone, Copy)]
struct Pattern {
    cycle: u8,
    offset: u8,
    split: u8,
    sequence: u8,
}

#[derive(Clone, Copy)]
struct Entry {
    time: u8,
    mode: u8,
    coordinated: u8,
}

struct Tables {
    phases: [Phase; 16],
    patterns: [Pattern; 48],
    splits: [[Entry; 16]; 32],
    sequences: [[List; 2]; 16],
    force_mode: u8,
    reference: u8,
}

struct Plan {
    cycle: u32,
    offset: u32,
    sequence: u8,
    coordinated: [u8; 2],
    force: [u32; 16],
    permissive: [u32; 16],
    window: u32,
    float: [u32; 16],
    floating: bool,
    shift: u32,
}

/// The standard tables, with pattern 2 as pattern 1.
fn std8() -> Tables {
    let unused = Phase {
        walk: 0,
        pedestrian_clear: 0,
        minimum_green: 0,
        yellow_change: 0,
        red_clear: 0,
        options: 0,
        ring: 0,
        concurrency: List::of(&[]),
        _rest: [0; 16],
    };
    let mut tables = Tables {
        phases: [unused; 16],
        patterns: [Pattern { cycle: 0, offset: 0, split: 0, sequence: 0 }; 48],
        splits: [[Entry { time: 0, mode: 2, coordinated: 0 }; 16]; 32],
        sequences: [[List::of(&[]); 2]; 16],
        force_mode: 1,
        reference: 1,
    };
    for place in 0..8 {
        let turn = place % 2 == 0;
        tables.phases[place] = Phase {
            walk: if turn { 0 } else { 7 },
            pedestrian_clear: if turn { 0 } else { 12 },
            minimum_green: if turn { 5 } else { 10 },
            yellow_change: if turn { 35 } else { 40 },
            red_clear: if turn { 10 } else { 15 },
            options: 1,
            ring: if place < 4 { 1 } else { 2 },
            concurrency: List::of([[5, 6], [7, 8], [1, 2], [3, 4]][place / 2].as_slice()),
            ..unused
        };
        tables.splits[0][place] = Entry {
            time: if turn { 15 } else { 30 },
            mode: 2,
            coordinated: (place % 4 == 1) as u8,
        };
    }
    tables.patterns[..2].fill(Pattern { cycle: 90, offset: 0, split: 1, sequence: 1 });
    tables.sequences[0] = [List::of(&[1, 2, 3, 4]), List::of(&[5, 6, 7, 8])];
    tables
}

/// The places of the bits of a set.
fn places(mut set: u16) -> impl Iterator<Item = usize> {
    std::iter::from_fn(move || {
        let place = set.trailing_zeros() as usize;
        set &= set.wrapping_sub(1);
        (place < 16).then_some(place)
    })
}

fn plan(tables: &Tables, pattern: u8) -> Plan {
    let row = tables.patterns[pattern as usize - 1];
    let split = &tables.splits[row.split as usize - 1];
    let cycle = 10 * u32::from(row.cycle);
    let mut enabled = 0u16;
    let mut concurrent = [0u16; 16];
    let mut coordinated = [0; 2];
    let mut float = [0; 16];
    let mut clear = [0; 16];
    for (place, phase) in tables.phases.iter().enumerate() {
        float[place] = 10 * u32::from(split[place].time);
        clear[place] = u32::from(phase.yellow_change) + u32::from(phase.red_clear);
        if phase.options & 1 == 1 {
            enabled |= 1 << place;
            for octet in phase.concurrency.phases() {
                concurrent[place] |= 1 << (octet - 1);
            }
            if split[place].coordinated == 1 {
                coordinated[phase.ring as usize - 1] = place as u8 + 1;
            }
        }
    }
    let mut start = [0; 16];
    for order in &tables.sequences[row.sequence as usize - 1] {
        let mut total = 0;
        for octet in order.phases() {
            start[*octet as usize - 1] = total;
            total += float[*octet as usize - 1];
        }
    }
    let held = coordinated.map(|phase| phase as usize - 1);
    let zero = start[held[0]].max(start[held[1]]);
    let mut force = [0; 16];
    let mut permissive = [0; 16];
    for place in places(enabled) {
        let mut side = 1 << place | concurrent[place];
        for other in places(concurrent[place]) {
            side |= concurrent[other];
        }
        let mut side_end = 0;
        let mut side_clear = 0;
        for other in places(side & enabled) {
            side_end = side_end.max(start[other] + float[other]);
            side_clear = side_clear.max(clear[other]);
        }
        let end = start[place] + float[place];
        let last = (end + cycle - clear[place]).min(side_end + cycle - side_clear);
        force[place] = (last + cycle - zero) % cycle;
        if split[place].coordinated != 1 && split[place].mode != 7 {
            let phase = &tables.phases[place];
            let green = (10 * u32::from(phase.minimum_green)).max(1);
            let service = if phase.walk == 0 {
                green
            } else {
                green.max(10 * (u32::from(phase.walk) + u32::from(phase.pedestrian_clear)))
            };
            permissive[place] = force[place] - service;
        }
    }
    let window = force[held[0]].min(force[held[1]]);
    Plan {
        cycle,
        offset: 10 * u32::from(row.offset),
        sequence: row.sequence,
        coordinated,
        force,
        permissive,
        window,
        float,
        floating: tables.force_mode == 2,
        shift: if tables.reference == 2 { window } else { 0 },
    }
}

fn fits(plan: &Plan, counter: u32, k: u32, service: u32, phase: u8) -> bool {
    plan.window <= counter && counter + k + service <= plan.force[phase as usize - 1]
}

fn plans(tables: &Tables, sum: &mut u32) {
    for turn in 0..PLANS {
        let plan = plan(tables, (turn % 2) as u8 + 1);
        let place = (turn % 16) as usize;
        *sum = sum
            .wrapping_add(plan.force[place])
            .wrapping_add(plan.permissive[place])
            .wrapping_add(plan.float[place])
            .wrapping_add(plan.window);
    }
}

fn room(plan: &Plan, sum: &mut u32) {
    let mut draw = 0u32;
    for _ in 0..FITS {
        draw = draw.wrapping_mul(1_664_525).wrapping_add(1_013_904_223);
        let drawn = draw >> 16;
        if fits(plan, drawn % 1024, 55, drawn >> 6, (drawn % 8) as u8 + 1) {
            *sum = sum.wrapping_add(1);
        }
    }
}

fn main() {
    let tables = std8();
    let standard = plan(&tables, 1);
    let known = (standard.cycle, standard.offset, standard.sequence, standard.floating, standard.shift);
    assert_eq!((known, standard.coordinated), ((900, 0, 1, false, 0), [2, 6]));
    assert_eq!(standard.force[..8], [855, 245, 405, 695, 855, 245, 405, 695]);
    assert_eq!(standard.permissive[..8], [805, 0, 355, 505, 805, 0, 355, 505]);
    let mut sum = 0;
    for _ in 0..300 {
        let begin = Instant::now();
        plans(black_box(&tables), &mut sum);
        let plans = begin.elapsed().as_nanos() * 1000 / u128::from(PLANS);
        let begin = Instant::now();
        room(black_box(&standard), &mut sum);
        let fits = begin.elapsed().as_nanos() * 1000 / u128::from(FITS);
        println!("plan {plans}\nfits {fits}");
    }
    println!("sum {sum}");
}
