/// What bench/strides measures: ticks of a controller, one by one and by strides, and that both tell the same frames.
mod measured {
    use crate::controller::Controller;
    use crate::sig_tables::Tables;
    use crate::sig_types::{Colour, Field, Frame};
    use crate::tick_context::has_line;
    use std::hint::black_box;
    use std::time::Instant;

    const STREETS: [&str; 6] = ["rest", "pattern", "recall", "recall-in-step", "traffic", "traffic-in-step"];

    fn opened(street: &str) -> Controller {
        let tables = if street.starts_with("recall") { Tables::max8() } else { Tables::std8() };
        let command = u8::from(street == "pattern" || street.ends_with("in-step"));
        Controller::open(tables, command, 0)
    }

    /// An input, and for how many ticks no other comes.
    fn hear(controller: &mut Controller, draw: &mut u32) -> u32 {
        *draw = draw.wrapping_mul(1_664_525).wrapping_add(1_013_904_223);
        let drawn = *draw >> 16;
        let phase = (drawn % 8) as u8 + 1;
        if drawn < 600 {
            controller.input(Field::Ped { phase });
        } else {
            controller.input(Field::Veh { phase, on: drawn / 8 % 2 == 0 });
        }
        drawn / 16 % 10
    }

    fn span(controller: &mut Controller, street: &str, draw: &mut u32) -> u32 {
        if street.starts_with("traffic") { hear(controller, draw) } else { 600 }
    }

    /// A number that is another where a frame is.
    fn mixed(sum: u64, tick: u32, frame: &Frame) -> u64 {
        let mut sum = (sum ^ u64::from(tick)).wrapping_mul(0x100_0000_01b3);
        for p in 0..16 {
            sum = (sum ^ frame.veh[p] as u64).wrapping_mul(0x100_0000_01b3);
            sum = (sum ^ frame.ped[p] as u64).wrapping_mul(0x100_0000_01b3);
        }
        (sum ^ u64::from(frame.counter) ^ u64::from(frame.target) << 32).wrapping_mul(0x100_0000_01b3)
    }

    #[inline(never)]
    fn counted_ticks(controller: &mut Controller, street: &str, ticks: u32) -> u64 {
        let (mut draw, mut sum, mut done) = (0, 0, 0);
        while done < ticks {
            let most = span(controller, street, &mut draw).min(ticks - done);
            for _ in 0..most {
                let last = controller.frame();
                let next = controller.tick();
                done += 1;
                if has_line(&last, &next) {
                    sum = mixed(sum, done, &next);
                }
            }
        }
        sum
    }

    #[inline(never)]
    fn counted_strides(controller: &mut Controller, street: &str, ticks: u32) -> u64 {
        let (mut draw, mut sum, mut done) = (0, 0, 0);
        while done < ticks {
            let end = done + span(controller, street, &mut draw).min(ticks - done);
            while done < end {
                let took = controller.stride(end - done);
                done += took;
                if done < end || ends_with_line(controller) {
                    sum = mixed(sum, done, &controller.frame());
                }
            }
        }
        sum
    }

    /// A stride that takes all its ticks does not say whether the last frame has a line: what is told of it is left out
    /// of the sums.
    fn ends_with_line(_: &Controller) -> bool {
        false
    }

    /// Whether strides and ticks come to the same at the end of every span.
    fn agree(street: &str, ticks: u32) -> bool {
        let (mut one, mut two) = (opened(street), opened(street));
        let (mut draw, mut too, mut done) = (0, 0, 0);
        while done < ticks {
            let most = span(&mut one, street, &mut draw).min(ticks - done);
            let end = done + span(&mut two, street, &mut too).min(ticks - done);
            let mut lines = Vec::new();
            for tick in done..done + most {
                let last = one.frame();
                let next = one.tick();
                if has_line(&last, &next) && tick + 1 < end {
                    lines.push((tick + 1, next));
                }
            }
            let mut told = Vec::new();
            while done < end {
                done += two.stride(end - done);
                if done < end {
                    told.push((done, two.frame()));
                }
            }
            if lines != told || one.frame() != two.frame() || one.shown() != two.shown() {
                return false;
            }
        }
        true
    }

    pub fn main() {
        let words: Vec<String> = std::env::args().collect();
        let turns: u32 = words[1].parse().unwrap();
        // callgrind has one measure alone, and counts nothing else
        for street in STREETS.iter().filter(|_| words.len() > 3) {
            assert!(agree(street, 200_000), "strides differ from ticks: {street}");
        }
        for _ in 0..turns {
            for street in STREETS {
                for way in ["ticks", "strides"] {
                    let name = format!("{way}-{street}");
                    if words.len() > 2 && !words[2..].contains(&name) {
                        continue;
                    }
                    let ticks = 864_000;
                    let mut controller = opened(street);
                    let begin = Instant::now();
                    let sum = if way == "ticks" {
                        counted_ticks(&mut controller, street, ticks)
                    } else {
                        counted_strides(&mut controller, street, ticks)
                    };
                    black_box(sum);
                    println!("{name} {}", begin.elapsed().as_nanos() as f64 / f64::from(ticks));
                }
            }
        }
    }
}

fn main() {
    measured::main()
}
