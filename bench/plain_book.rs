/// What bench/book measures: ticks of a controller and of a book, and a poll of eight objects.
mod measured {
    use crate::agent::{Ask, answer, decode, decode_into};
    use crate::arrayvec::ArrayVec;
    use crate::cab_book::{Book, Cabinet, Control};
    use crate::controller::Controller;
    use crate::master_poll::{Task, task_octets};
    use crate::plain_std::{Global, Vec};
    use crate::sig_types::Streams;
    use crate::sig_tables::Tables;
    use crate::sig_types::Octets;
    use crate::stage_txn::Stage;
    use std::hint::black_box;
    use std::time::Instant;

    const ROUNDS: usize = 50;
    const TICKS: u32 = 400;
    const POLLS: u32 = 10_000;

    pub fn community() -> ArrayVec<u8, 32> {
        let mut name = ArrayVec::new();
        let _ = name.try_extend_from_slice(b"public");
        name
    }

    fn opened(tables: &str, command: u8) -> Controller {
        Controller::open(if tables == "max8" { Tables::max8() } else { Tables::std8() }, command, 0)
    }

    fn streams(polls: Vec<Octets>, ticks: u32) -> Streams {
        Streams { fields: Vec::new(Global), polls, loads: Vec::new(Global), prios: Vec::new(Global), ticks }
    }

    fn poll() -> Octets {
        task_octets(&community(), 77, Task::Poll)
    }

    #[inline(never)]
    fn counted_ticks(controller: &mut Controller) {
        for _ in 0..TICKS {
            black_box(controller.tick());
        }
    }

    #[inline(never)]
    fn counted_passes(book: &mut Book, pass: u32) {
        while book.left(pass) > 0 {
            book.apply(pass);
        }
    }

    #[inline(never)]
    fn counted_strides(book: &mut Book, pass: u32) {
        while book.left(pass) > 0 {
            let left = book.left(pass);
            book.stride(pass, left);
        }
    }

    #[inline(never)]
    fn counted_answers(controller: &Controller, stage: &Stage, poll: &Octets) {
        let name = community();
        for _ in 0..POLLS {
            let ask = decode(poll.as_slice(), name.as_slice(), controller.tables());
            let Some(ask) = &ask else { panic!("a poll is no message") };
            let shown = controller.shown();
            black_box(answer(ask, controller.tables(), &shown, stage.state(), stage.last(), None));
        }
    }

    /// As a book does it: what is asked is read into one ask, which is cleared each time.
    #[inline(never)]
    fn counted_kept(controller: &Controller, stage: &Stage, poll: &Octets) {
        let name = community();
        let mut ask = Ask::blank();
        for _ in 0..POLLS {
            if decode_into(poll.as_slice(), name.as_slice(), controller.tables(), &mut ask).is_none() {
                panic!("a poll is no message")
            }
            let shown = controller.shown();
            black_box(answer(&ask, controller.tables(), &shown, stage.state(), stage.last(), None));
            ask.message.community.clear();
            ask.message.binds.clear();
        }
    }

    /// Nanoseconds for each of so many things that are done.
    fn took(many: usize, doing: impl FnOnce()) -> f64 {
        let begin = Instant::now();
        doing();
        begin.elapsed().as_nanos() as f64 / many as f64
    }

    pub fn controller_ticks(tables: &str, command: u8) -> f64 {
        let mut controller = opened(tables, command);
        let least = (0..ROUNDS).map(|_| took(TICKS as usize, || counted_ticks(&mut controller)));
        least.sum::<f64>() / ROUNDS as f64
    }

    fn book_of(tables: &str, command: u8) -> Book {
        match Book::new(Global, Cabinet::new(Control::Registers(opened(tables, command)), community())) {
            Ok(book) => book,
            Err(_) => panic!("no memory"),
        }
    }

    pub fn book_ticks(tables: &str, command: u8, counted: fn(&mut Book, u32)) -> f64 {
        let mut book = book_of(tables, command);
        let mut sum = 0.0;
        for _ in 0..ROUNDS {
            if book.open_round(Global, streams(Vec::new(Global), TICKS)).is_err() {
                panic!("no memory");
            }
            sum += took(TICKS as usize, || counted(&mut book, 4));
        }
        sum / ROUNDS as f64
    }

    pub fn answers() -> f64 {
        let (controller, stage, poll) = (opened("std8", 1), Stage::new(), poll());
        took(POLLS as usize, || counted_answers(&controller, &stage, &poll))
    }

    pub fn kept() -> f64 {
        let (controller, stage, poll) = (opened("std8", 1), Stage::new(), poll());
        took(POLLS as usize, || counted_kept(&controller, &stage, &poll))
    }

    pub fn book_polls() -> f64 {
        let mut book = book_of("std8", 1);
        let mut sum = 0.0;
        for _ in 0..POLLS / 100 {
            let mut polls = Vec::new(Global);
            for _ in 0..100 {
                let _ = polls.push(poll());
            }
            if book.open_round(Global, streams(polls, 0)).is_err() {
                panic!("no memory");
            }
            sum += took(100, || counted_passes(&mut book, 1));
        }
        sum / (POLLS / 100) as f64
    }

    pub fn one(what: &str) -> f64 {
        match what {
            "controller-rest" => controller_ticks("std8", 0),
            "book-rest" => book_ticks("std8", 0, counted_passes),
            "strides-rest" => book_ticks("std8", 0, counted_strides),
            "controller-recall" => controller_ticks("max8", 0),
            "book-recall" => book_ticks("max8", 0, counted_passes),
            "strides-recall" => book_ticks("max8", 0, counted_strides),
            "controller-pattern" => controller_ticks("max8", 1),
            "book-pattern" => book_ticks("max8", 1, counted_passes),
            "strides-pattern" => book_ticks("max8", 1, counted_strides),
            "answers" => answers(),
            "kept" => kept(),
            "book-polls" => book_polls(),
            _ => panic!("nothing of that name is measured"),
        }
    }
}

/// Measures what is named, as often as the first word says, and prints the nanoseconds of each.
fn main() {
    let words: std::vec::Vec<String> = std::env::args().skip(1).collect();
    for _ in 0..words[0].parse::<u32>().expect("a number of turns") {
        for what in &words[1..] {
            println!("{what} {:.2}", measured::one(what));
        }
    }
}
