//! Makes a schedule for an image, of actions that bench/plain_emulator.rs finds possible.
//!
//! usage: schedule_maker MODE SEED STEPS IMAGE [CHAIN=HEX ..]
//!
//! It prints at most STEPS lines, and fewer where nothing useful is left to do. What MODE leaves open is drawn from SEED:
//!
//!   prefetching        fetches as early as it may, the last request first; lets the newest land first; messages come last
//!   newest-first       starts all that may start before anything lands, and then lets the newest land first
//!   refetching         fetches at every second step what it holds already
//!   bursts             does up to 256 steps of one chain, then of another
//!   chain-after-chain  keeps to one chain until that one has nothing left to do
//!   late-messages      does all that can be done without a message, and then lets all of them come at once
//!
//! It is built by `rustc --edition 2021 -O bench/schedule_maker.rs`; bin/redn-schedule does so.

#[allow(dead_code)]
mod plain_emulator;

use plain_emulator::{Action, Adapter, Queue, open_file};
use std::env;
use std::fmt::Write as _;
use std::io::Write as _;
use std::process::ExitCode;

/// The longest burst.
const BURST: usize = 256;

#[derive(Clone, Copy, PartialEq)]
enum Mode {
    Prefetching,
    NewestFirst,
    Refetching,
    Bursts,
    ChainAfterChain,
    LateMessages,
}

const MODES: [(&str, Mode); 6] = [
    ("prefetching", Mode::Prefetching),
    ("newest-first", Mode::NewestFirst),
    ("refetching", Mode::Refetching),
    ("bursts", Mode::Bursts),
    ("chain-after-chain", Mode::ChainAfterChain),
    ("late-messages", Mode::LateMessages),
];

/// What an action is to a mode.
#[derive(Clone, Copy, PartialEq)]
enum Kind {
    Deliver,
    FetchLeast,
    FetchGreatest,
    Start,
    LandOldest,
    LandNewest,
    Complete,
}

impl Mode {
    /// The kinds of which it does the first that is possible; or none, where it draws among all.
    fn order(self) -> Option<[Kind; 5]> {
        match self {
            Mode::Prefetching => Some([Kind::FetchGreatest, Kind::Start, Kind::LandNewest, Kind::Complete, Kind::Deliver]),
            Mode::NewestFirst => Some([Kind::Deliver, Kind::Start, Kind::FetchLeast, Kind::LandNewest, Kind::Complete]),
            _ => None,
        }
    }
}

struct Draw(u64);

impl Draw {
    /// A number below `many`, which isn't 0.
    fn below(&mut self, many: usize) -> usize {
        self.0 = self.0.wrapping_mul(6_364_136_223_846_793_005).wrapping_add(1_442_695_040_888_963_407);
        (self.0 >> 33) as usize % many
    }

    fn of<T: Copy>(&mut self, things: &[T]) -> Option<T> {
        (!things.is_empty()).then(|| things[self.below(things.len())])
    }
}

/// The useful actions that a queue may do next.
fn offers_of(a: &Adapter, q: usize, offers: &mut Vec<(Kind, Action)>) {
    let u = &a.queues[q];
    if u.stopped || u.head >= u.limit && u.flights.is_empty() {
        return;
    }
    if a.may_start(u) {
        offers.push((Kind::Start, Action::Start(q)));
    }
    let mut unheld = window(u).filter(|index| u.held(*index).is_none());
    if let Some(least) = unheld.next() {
        offers.push((Kind::FetchLeast, Action::Fetch(q, least)));
        offers.push((Kind::FetchGreatest, Action::Fetch(q, unheld.next_back().unwrap_or(least))));
    }
    let mut unlanded = u.flights.iter().filter(|f| !f.landed);
    if let Some(oldest) = unlanded.next() {
        offers.push((Kind::LandOldest, Action::Land(q, oldest.index)));
        offers.push((Kind::LandNewest, Action::Land(q, unlanded.next_back().unwrap_or(oldest).index)));
    }
    if u.flights.front().is_some_and(|f| f.landed) {
        offers.push((Kind::Complete, Action::Complete(q)));
    }
}

/// The indexes that may be fetched.
fn window(u: &Queue) -> std::ops::Range<u64> {
    u.head..u.limit.min(u.head + u.slots)
}

struct Maker {
    mode: Mode,
    draw: Draw,
    /// Of each chain its queues.
    queues: Vec<Vec<usize>>,
    /// The chain whose turn it is, and for how many steps more.
    chain: usize,
    left: usize,
    /// The chains whose messages come next.
    due: Vec<usize>,
}

impl Maker {
    fn new(mode: Mode, seed: u64, a: &Adapter) -> Maker {
        let of = |c: usize| (0..a.queues.len()).filter(|q| a.queues[*q].domain == c).collect();
        let queues = (0..a.receives.len()).map(of).collect();
        Maker { mode, draw: Draw(seed), queues, chain: 0, left: 0, due: Vec::new() }
    }

    /// The useful actions of a chain; without its message, where that comes late.
    fn offers(&self, a: &Adapter, chain: usize) -> Vec<(Kind, Action)> {
        let mut offers = Vec::new();
        if self.mode != Mode::LateMessages && a.is_possible(Action::Deliver(chain)) {
            offers.push((Kind::Deliver, Action::Deliver(chain)));
        }
        for q in &self.queues[chain] {
            offers_of(a, *q, &mut offers);
        }
        offers
    }

    /// What the chain does whose turn it is: nothing, where no chain has anything useful to do.
    fn turn(&mut self, a: &Adapter) -> Option<Vec<(Kind, Action)>> {
        let stays = matches!(self.mode, Mode::Bursts | Mode::ChainAfterChain) && self.left > 0;
        if stays {
            let offers = self.offers(a, self.chain);
            if !offers.is_empty() {
                self.left -= usize::from(self.mode == Mode::Bursts);
                return Some(offers);
            }
        }
        let chains = self.queues.len();
        let first = self.draw.below(chains);
        let (chain, offers) = (first..chains).chain(0..first).map(|c| (c, self.offers(a, c))).find(|it| !it.1.is_empty())?;
        self.chain = chain;
        self.left = if self.mode == Mode::Bursts { self.draw.below(BURST) } else { 1 };
        Some(offers)
    }

    fn next(&mut self, a: &Adapter) -> Option<Action> {
        if let Some(chain) = self.due.pop() {
            return Some(Action::Deliver(chain));
        }
        let Some(offers) = self.turn(a) else {
            return self.late_message(a);
        };
        if self.mode == Mode::Refetching && self.draw.below(2) == 0 {
            if let Some(again) = self.again(a) {
                return Some(again);
            }
        }
        let wanted = match self.mode.order() {
            Some(order) => order.iter().find_map(|kind| offers.iter().any(|it| it.0 == *kind).then_some(*kind)),
            None => None,
        };
        let drawn: Vec<Action> = offers.iter().filter(|it| wanted.is_none_or(|kind| it.0 == kind)).map(|it| it.1).collect();
        self.draw.of(&drawn)
    }

    /// One of the copies of the chain whose turn it is, fetched once more.
    fn again(&mut self, a: &Adapter) -> Option<Action> {
        let held = |q: usize| window(&a.queues[q]).filter(move |index| a.queues[q].held(*index).is_some()).map(move |index| (q, index));
        let running = self.queues[self.chain].iter().filter(|q| !a.queues[**q].stopped);
        let copies: Vec<_> = running.flat_map(|q| held(*q)).collect();
        self.draw.of(&copies).map(|(q, index)| Action::Fetch(q, index))
    }

    /// The first of the messages that are still to come, in a drawn order; the others are due.
    fn late_message(&mut self, a: &Adapter) -> Option<Action> {
        let mut pending: Vec<usize> = (0..a.receives.len()).filter(|c| a.is_possible(Action::Deliver(*c))).collect();
        while !pending.is_empty() {
            let place = self.draw.below(pending.len());
            self.due.push(pending.swap_remove(place));
        }
        self.due.pop().map(Action::Deliver)
    }
}

fn line_of(action: Action, text: &mut String) {
    let done = match action {
        Action::Deliver(c) => writeln!(text, "d {c}"),
        Action::Fetch(q, index) => writeln!(text, "f {q} {index}"),
        Action::Start(q) => writeln!(text, "s {q}"),
        Action::Land(q, index) => writeln!(text, "l {q} {index}"),
        Action::Complete(q) => writeln!(text, "c {q}"),
    };
    done.expect("a text takes every line");
}

fn schedule(words: &[String]) -> Result<String, String> {
    let usage = || format!("usage: redn-schedule {} SEED STEPS IMAGE [CHAIN=HEX ..]", MODES.map(|it| it.0).join("|"));
    let [mode, seed, steps, image, messages @ ..] = words else { return Err(usage()) };
    let mode = MODES.iter().find(|it| it.0 == mode).ok_or_else(usage)?.1;
    let [seed, steps] = [seed, steps].map(|word| word.parse::<u64>().map_err(|_| format!("{word} is no number below 2^64")));
    let (seed, steps) = (seed?, steps?);
    let mut a = open_file(image, messages)?;
    let mut maker = Maker::new(mode, seed, &a);
    let mut text = String::new();
    for _ in 0..steps {
        let Some(action) = maker.next(&a) else { break };
        line_of(action, &mut text);
        a.step(action);
    }
    Ok(text)
}

fn main() -> ExitCode {
    let words: Vec<String> = env::args().skip(1).collect();
    let done = schedule(&words).and_then(|text| std::io::stdout().write_all(text.as_bytes()).map_err(|e| e.to_string()));
    if let Err(why) = done {
        eprintln!("redn-schedule: {why}");
        return ExitCode::FAILURE;
    }
    ExitCode::SUCCESS
}
