/// What bench/observer measures: the strides of a controller and of an observer, and that both tell the same frames.
mod measured {
    use crate::controller::Controller;
    use crate::observer::Observer;
    use crate::plain_std::Global;
    use crate::sig_tables::Tables;
    use crate::sig_types::{Field, Frame};
    use std::hint::black_box;
    use std::time::Instant;

    const STREETS: [&str; 6] = ["rest", "pattern", "recall", "recall-in-step", "traffic", "traffic-in-step"];

    trait Way {
        fn opened(street: &str) -> Self;
        fn input(&mut self, field: Field);
        fn stride(&mut self, n: u32) -> (u32, bool);
        fn frame(&self) -> Frame;
    }

    fn tables_of(street: &str) -> Tables {
        if street.starts_with("recall") { Tables::max8() } else { Tables::std8() }
    }

    fn command_of(street: &str) -> u8 {
        u8::from(street == "pattern" || street.ends_with("in-step"))
    }

    impl Way for Controller {
        fn opened(street: &str) -> Self {
            Controller::open(tables_of(street), command_of(street), 0)
        }
        fn input(&mut self, field: Field) {
            self.input(field)
        }
        fn stride(&mut self, n: u32) -> (u32, bool) {
            self.stride_told(n)
        }
        fn frame(&self) -> Frame {
            self.frame()
        }
    }

    impl Way for Observer {
        fn opened(street: &str) -> Self {
            crate::observer::open(Global, tables_of(street), command_of(street), 0).ok().unwrap()
        }
        fn input(&mut self, field: Field) {
            self.input(field)
        }
        fn stride(&mut self, n: u32) -> (u32, bool) {
            self.stride_told(n)
        }
        fn frame(&self) -> Frame {
            self.frame()
        }
    }

    fn hear<W: Way>(way: &mut W, draw: &mut u32) -> u32 {
        *draw = draw.wrapping_mul(1_664_525).wrapping_add(1_013_904_223);
        let drawn = *draw >> 16;
        let phase = (drawn % 8) as u8 + 1;
        if drawn < 600 {
            way.input(Field::Ped { phase });
        } else {
            way.input(Field::Veh { phase, on: drawn / 8 % 2 == 0 });
        }
        drawn / 16 % 10
    }

    fn span<W: Way>(way: &mut W, street: &str, draw: &mut u32) -> u32 {
        if street.starts_with("traffic") { hear(way, draw) } else { 600 }
    }

    fn mixed(sum: u64, tick: u32, frame: &Frame) -> u64 {
        let mut sum = (sum ^ u64::from(tick)).wrapping_mul(0x100_0000_01b3);
        for p in 0..16 {
            sum = (sum ^ frame.veh[p] as u64).wrapping_mul(0x100_0000_01b3);
            sum = (sum ^ frame.ped[p] as u64).wrapping_mul(0x100_0000_01b3);
        }
        (sum ^ u64::from(frame.counter) ^ u64::from(frame.target) << 32).wrapping_mul(0x100_0000_01b3)
    }

    #[inline(never)]
    fn counted_strides<W: Way>(way: &mut W, street: &str, ticks: u32) -> u64 {
        let (mut draw, mut sum, mut done) = (0, 0, 0);
        while done < ticks {
            let end = done + span(way, street, &mut draw).min(ticks - done);
            while done < end {
                let (took, told) = way.stride(end - done);
                done += took;
                if told {
                    sum = mixed(sum, done, &way.frame());
                }
            }
        }
        sum
    }

    pub fn main() {
        let words: Vec<String> = std::env::args().collect();
        let turns: u32 = words[1].parse().unwrap();
        for _ in 0..turns {
            for street in STREETS {
                let mut sums = Vec::new();
                for way in ["controller", "observer"] {
                    let name = format!("{way}-{street}");
                    if words.len() > 2 && !words[2..].contains(&name) {
                        continue;
                    }
                    let ticks = 864_000;
                    let begin = Instant::now();
                    let sum = if way == "controller" {
                        counted_strides(&mut Controller::opened(street), street, ticks)
                    } else {
                        counted_strides(&mut Observer::opened(street), street, ticks)
                    };
                    sums.push(black_box(sum));
                    println!("{name} {}", begin.elapsed().as_nanos() as f64 / f64::from(ticks));
                }
                assert!(sums.windows(2).all(|pair| pair[0] == pair[1]), "an observer differs: {street}");
            }
        }
    }
}

fn main() {
    measured::main()
}
