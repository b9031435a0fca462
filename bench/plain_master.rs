/// What bench/master measures: the beginnings and the ends of rounds of the master, the master's turns and the line.
mod measured {
    use crate::agent::{answer, decode};
    use crate::arrayvec::ArrayVec;
    use crate::controller::Controller;
    use crate::master_rounds::{Begun, MasterRounds};
    use crate::plain_std::{Global, Vec};
    use crate::sig_types::{Answers, Streams};
    use crate::scenario_data::{Base, Cabinet, Direction, Fault, FaultKind, MasterSetup, Scenario};
    use crate::sig_tables::Tables;
    use crate::sig_types::{Octets, Way};
    use crate::stage_txn::Stage;
    use std::time::{Duration, Instant};

    const CABINETS: u32 = 64;
    const ROUNDS: u32 = 200;

    fn cabinets() -> Vec<Cabinet> {
        let mut all = Vec::new(Global);
        for _ in 0..CABINETS {
            let cells = Vec::new(Global);
            let _ = all.push(Cabinet { base: Base::Std8, cells, pattern: 1, clock: 0, section: 1, gain: 0, lose: 0 });
        }
        all
    }

    /// Faults that meet nothing: in no round are so many frames sent to a cabinet.
    fn missing(many: u32) -> Vec<Fault> {
        let mut all = Vec::new(Global);
        for number in 0..many {
            let way = if number % 2 == 0 { Direction::Down } else { Direction::Up };
            let (round, cabinet) = (1 + number % ROUNDS, 1 + number % CABINETS);
            let (stream, kind) = (Way::Poll, FaultKind::Lose);
            let _ = all.push(Fault { round, cabinet, stream, way, index: 9, kind, by: 0, octet: 0 });
        }
        all
    }

    fn scenario(faults: Vec<Fault>) -> Scenario {
        let mut community = ArrayVec::new();
        let _ = community.try_extend_from_slice(b"public");
        let schedule = Vec::new(Global);
        let master = MasterSetup { clock: 0, poll_every: 1, clock_every: 0, pattern_every: 0, retries: 3, schedule };
        Scenario {
            version: 1,
            rounds: ROUNDS,
            ticks: 10,
            community,
            cabinets: cabinets(),
            master,
            inputs: Vec::new(Global),
            loads: Vec::new(Global),
            priority: Vec::new(Global),
            frames: Vec::new(Global),
            faults,
            compact: Vec::new(Global),
        }
    }

    /// What a cabinet answers to the frames of its streams; this is not counted.
    fn answered(controller: &Controller, s: &Scenario, streams: &Vec<Streams>) -> Vec<Answers> {
        let stage = Stage::new();
        let shown = controller.shown();
        let mut all = Vec::new(Global);
        for of_one in streams {
            let mut polls = Vec::new(Global);
            for frame in &of_one.polls {
                if let Some(ask) = &decode(frame.as_slice(), s.community.as_slice(), controller.tables()) {
                    let _ = polls.push(answer(ask, controller.tables(), &shown, stage.state(), stage.last(), None));
                }
            }
            let _ = all.push(Answers { polls, loads: Vec::new(Global), prios: Vec::new(Global) });
        }
        all
    }

    #[inline(never)]
    fn counted_begin(master: &mut MasterRounds, round: u32, s: &Scenario) -> Begun {
        match master.begin(Global, round, s) {
            Ok(begun) => begun,
            Err(_) => panic!("no memory"),
        }
    }

    #[inline(never)]
    fn counted_end(master: &mut MasterRounds, round: u32, answers: &Vec<Answers>) {
        if master.end(Global, round, answers.as_slice()).is_err() {
            panic!("no memory");
        }
    }

    /// Nanoseconds a cabinet and round of all beginnings and ends together. Each cabinet is polled in every round, and
    /// answers.
    pub fn one(what: &str) -> f64 {
        let faults = match what {
            "polled" => 0,
            "missing" => 20_000,
            _ => panic!("nothing of that name is measured"),
        };
        let s = scenario(missing(faults));
        let controller = Controller::open(Tables::std8(), 1, 0);
        let Ok(mut master) = MasterRounds::open(Global, &s) else { panic!("no memory") };
        let (mut took, mut polled) = (Duration::ZERO, 0);
        for round in 1..=ROUNDS {
            let begin = Instant::now();
            let begun = counted_begin(&mut master, round, &s);
            took += begin.elapsed();
            polled += begun.streams.iter().filter(|streams| streams.polls.len() == 1).count();
            let answers = answered(&controller, &s, &begun.streams);
            let begin = Instant::now();
            counted_end(&mut master, round, &answers);
            took += begin.elapsed();
        }
        assert_eq!(polled, (CABINETS * ROUNDS) as usize);
        took.as_nanos() as f64 / f64::from(CABINETS * ROUNDS)
    }
}

/// Measures what is named, as often as the first word says, and prints the nanoseconds of each.
fn main() {
    let words: std::vec::Vec<String> = std::env::args().skip(1).collect();
    for _ in 0..words[0].parse::<u32>().expect("a number of turns") {
        for what in &words[1..] {
            println!("{what} {:.2}", measured::one(what));
        }
    }
}
