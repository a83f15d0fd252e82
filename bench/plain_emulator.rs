//! A plain emulator of the adapter, written from docs/formats.md alone. It shares no code with crates/, and nothing is proved of it.
//! bench/compare-runs holds what `redn run` prints against what it prints, and its speed is one to compare with. As a module it tells
//! bench/schedule_maker.rs which actions are possible.
//!
//! usage: plain_emulator IMAGE --fair N [CHAIN=HEX ..]
//!        plain_emulator IMAGE --schedule FILE [CHAIN=HEX ..]
//!
//! It prints what `redn run` prints, and on standard error how many steps it made, and how many a second. What the rules of images,
//! schedules and messages forbid is looked for only so far that no such file ends it in the middle. It is built by
//! `rustc --edition 2021 -O bench/plain_emulator.rs`.

use std::collections::{HashMap, VecDeque};
use std::fmt::Write as _;
use std::time::Instant;
use std::process::ExitCode;
use std::{env, fs};

pub type Slot = [u8; 64];

fn word(bytes: &[u8], at: usize) -> u64 {
    u64::from_be_bytes(bytes[at..at + 8].try_into().unwrap())
}

fn half(bytes: &[u8], at: usize) -> u32 {
    u32::from_be_bytes(bytes[at..at + 4].try_into().unwrap())
}

fn quarter(bytes: &[u8], at: usize) -> u16 {
    u16::from_be_bytes(bytes[at..at + 2].try_into().unwrap())
}

struct Request {
    op: u16,
    local: (u32, u64),
    remote: (u32, u64),
    length: u64,
    first: u64,
    second: u64,
}

fn decode(slot: &Slot) -> Request {
    Request {
        op: quarter(slot, 0),
        local: (half(slot, 8), word(slot, 16)),
        remote: (half(slot, 12), word(slot, 24)),
        length: word(slot, 32),
        first: word(slot, 40),
        second: word(slot, 48),
    }
}

#[derive(Clone, Copy, PartialEq)]
enum Kind {
    Vars,
    Table(u32),
    Code,
    Control,
    Message,
}

impl Kind {
    /// Code and Control: what is written there shows nothing.
    fn is_hidden(self) -> bool {
        self == Kind::Code || self == Kind::Control
    }
}

#[derive(Clone, Copy)]
struct Region {
    domain: usize,
    kind: Kind,
    rights: u32,
    base: u64,
    length: u64,
}

/// Where an access lies in memory, and in a region of which kind.
type Spot = (usize, Kind);

/// Why an access is refused: the range passes the end of a region of this kind, or something else.
enum Refusal {
    Range(Kind),
    Other,
}

/// No right, or the bits of the rights of a region.
const ANY: u32 = 0;
const LOCAL_WRITE: u32 = 1;
const REMOTE_READ: u32 = 2;
const REMOTE_WRITE: u32 = 4;
const ATOMIC: u32 = 8;

pub struct Flight {
    pub index: u64,
    copy: Slot,
    pub landed: bool,
}

pub struct Queue {
    pub domain: usize,
    managed: bool,
    base: usize,
    pub slots: u64,
    pub limit: u64,
    pub head: u64,
    /// By slot, the copy of the index from head on that has this slot.
    held: Vec<Option<Slot>>,
    pub flights: VecDeque<Flight>,
    counter: u64,
    pub stopped: bool,
}

impl Queue {
    pub fn held(&self, index: u64) -> Option<&Slot> {
        self.held[(index % self.slots) as usize].as_ref()
    }

    fn place(&self, index: u64) -> usize {
        self.base + 64 * (index % self.slots) as usize
    }

    fn may_fetch(&self, index: u64) -> bool {
        self.head <= index && index < self.limit && index < self.head + self.slots
    }

    pub fn unlanded(&self, index: u64) -> Option<usize> {
        self.flights.iter().position(|f| f.index == index && !f.landed)
    }
}

#[derive(Clone, Copy)]
pub enum Action {
    Deliver(usize),
    Fetch(usize, u64),
    Start(usize),
    Land(usize, u64),
    Complete(usize),
}

pub struct Adapter {
    memory: Vec<u8>,
    regions: HashMap<u32, Region>,
    pub queues: Vec<Queue>,
    pub receives: Vec<(usize, usize)>,
    pending: Vec<Option<Vec<u8>>>,
    received: Vec<u64>,
    pub events: String,
}

fn kind_of(number: u16, table: u32) -> Kind {
    match number {
        0 => Kind::Vars,
        1 => Kind::Table(table),
        2 => Kind::Code,
        3 => Kind::Control,
        _ => Kind::Message,
    }
}

fn region_at(row: &[u8]) -> (u32, Region) {
    let region = Region {
        domain: quarter(row, 4) as usize,
        kind: kind_of(quarter(row, 6), half(row, 8)),
        rights: half(row, 12),
        base: word(row, 16),
        length: word(row, 24),
    };
    (half(row, 0), region)
}

fn queue_at(row: &[u8]) -> Queue {
    let slots = word(row, 16);
    Queue {
        domain: half(row, 0) as usize,
        managed: half(row, 4) == 1,
        base: word(row, 8) as usize,
        slots,
        limit: word(row, 24),
        head: 0,
        held: vec![None; slots as usize],
        flights: VecDeque::new(),
        counter: 0,
        stopped: false,
    }
}

/// A front of some bytes and the rest, or nothing where they are too few.
fn cut(bytes: &[u8], length: usize) -> Option<(&[u8], &[u8])> {
    (length <= bytes.len()).then(|| bytes.split_at(length))
}

fn ends_within(base: u64, length: u64, memory: &[u8]) -> bool {
    base.checked_add(length).is_some_and(|end| end <= memory.len() as u64)
}

impl Adapter {
    /// The adapter before its first step, with a message for each chain that is to get one; or why there is none.
    pub fn open(image: &[u8], messages: HashMap<usize, Vec<u8>>) -> Result<Adapter, &'static str> {
        let adapter = Adapter::laid(image).ok_or("the image is cut short")?;
        let (memory, chains) = (&adapter.memory, adapter.receives.len());
        let fits = |u: &Queue| u.domain < chains && u.slots > 0 && ends_within(u.base as u64, 64 * u.slots, memory);
        let rows_fit = adapter.regions.values().all(|r| ends_within(r.base, r.length, memory)) && adapter.queues.iter().all(fits);
        if !image.starts_with(b"REDN") || chains == 0 || !rows_fit || adapter.receives.iter().any(|r| !ends_within(r.0 as u64, r.1 as u64, memory)) {
            return Err("the image breaks a rule of images");
        }
        if messages.iter().any(|(chain, bytes)| adapter.receives.get(*chain).is_none_or(|place| place.1 != bytes.len())) {
            return Err("a message has no chain, or not the length of its place");
        }
        let pending = (0..chains).map(|chain| messages.get(&chain).cloned()).collect();
        Ok(Adapter { pending, ..adapter })
    }

    /// What an image says, with no message to come.
    fn laid(image: &[u8]) -> Option<Adapter> {
        let (header, rest) = cut(image, 32)?;
        let [regions, queues, receives] = [8, 12, 16].map(|at| half(header, at) as usize);
        let (rows, rest) = cut(rest, 32 * regions)?;
        let (queue_rows, rest) = cut(rest, 32 * queues)?;
        let (receive_rows, memory) = cut(rest, 16 * receives)?;
        // Each slot of a queue has bytes of the image, so a number above their length is wrong.
        let queue_rows = queue_rows.chunks(32).map(|row| (word(row, 16) <= image.len() as u64).then(|| queue_at(row)));
        Some(Adapter {
            memory: memory.to_vec(),
            regions: rows.chunks(32).map(region_at).collect(),
            queues: queue_rows.collect::<Option<_>>()?,
            receives: receive_rows.chunks(16).map(|row| (word(row, 0) as usize, word(row, 8) as usize)).collect(),
            pending: Vec::new(),
            received: vec![0; receives],
            events: String::new(),
        })
    }

    fn counter(&self, domain: usize, number: u64) -> Option<u64> {
        if number >= 65536 {
            return (number - 65536 == domain as u64).then(|| self.received[domain]);
        }
        self.queues.get(number as usize).filter(|u| u.domain == domain).map(|u| u.counter)
    }

    pub fn may_start(&self, u: &Queue) -> bool {
        let Some(copy) = u.held(u.head) else { return false };
        match quarter(copy, 0) {
            0..=5 => (u.flights.len() as u64) < u.slots,
            6 => self.counter(u.domain, word(copy, 40)).is_none_or(|count| word(copy, 48) <= count),
            _ => true,
        }
    }

    pub fn is_possible(&self, action: Action) -> bool {
        let queue = |q: usize| self.queues.get(q).filter(|u| !u.stopped);
        match action {
            Action::Deliver(c) => self.pending.get(c).is_some_and(Option::is_some),
            Action::Fetch(q, index) => queue(q).is_some_and(|u| u.may_fetch(index)),
            Action::Start(q) => queue(q).is_some_and(|u| self.may_start(u)),
            Action::Land(q, index) => queue(q).is_some_and(|u| u.unlanded(index).is_some()),
            Action::Complete(q) => queue(q).is_some_and(|u| u.flights.front().is_some_and(|f| f.landed)),
        }
    }

    /// Makes a step that is possible.
    pub fn step(&mut self, action: Action) {
        match action {
            Action::Deliver(c) => {
                let (base, length) = self.receives[c];
                let message = self.pending[c].take().unwrap();
                self.memory[base..base + length].copy_from_slice(&message);
                self.received[c] += 1;
            }
            Action::Fetch(q, index) => {
                let u = &mut self.queues[q];
                let at = u.place(index);
                u.held[(index % u.slots) as usize] = Some(self.memory[at..at + 64].try_into().unwrap());
            }
            Action::Start(q) => self.start(q),
            Action::Land(q, index) => self.land(q, index),
            Action::Complete(q) => {
                let u = &mut self.queues[q];
                u.counter += u64::from(u.flights.pop_front().unwrap().copy[63] & 1);
            }
        }
    }

    fn start(&mut self, q: usize) {
        let u = &mut self.queues[q];
        let index = u.head;
        let copy = u.held[(index % u.slots) as usize].take().unwrap();
        let stale = self.memory[u.place(index)..][..64] != copy;
        u.head += 1;
        let (domain, r) = (u.domain, decode(&copy));
        let refused = match r.op {
            0..=5 => {
                u.flights.push_back(Flight { index, copy, landed: false });
                false
            }
            6 => self.counter(domain, r.first).is_none(),
            7 => !self.raise(domain, r.first, r.second),
            _ => false,
        };
        self.queues[q].stopped = refused || r.op > 7;
        match (stale, r.op > 7, refused) {
            (true, _, _) => writeln!(self.events, "stale {q} {index}").unwrap(),
            (_, true, _) => writeln!(self.events, "undefined {q} {index}").unwrap(),
            (_, _, true) => writeln!(self.events, "refused {q} {index}").unwrap(),
            _ => {}
        }
    }

    /// Raises a limit, unless it may not be raised.
    fn raise(&mut self, domain: usize, number: u64, limit: u64) -> bool {
        match self.queues.get_mut(number as usize) {
            Some(u) if u.managed && u.domain == domain => {
                u.limit = u.limit.max(limit);
                true
            }
            _ => false,
        }
    }

    fn spot(&self, domain: usize, (key, offset): (u32, u64), length: u64, need: u32) -> Result<Spot, Refusal> {
        let row = self.regions.get(&key).ok_or(Refusal::Other)?;
        if row.domain != domain || length == 0 || length > 1_048_576 {
            return Err(Refusal::Other);
        }
        if offset > row.length || row.length - offset < length {
            return Err(Refusal::Range(row.kind));
        }
        if need == ATOMIC && offset % 8 != 0 || row.rights & need != need {
            return Err(Refusal::Other);
        }
        Ok(((row.base + offset) as usize, row.kind))
    }

    fn land(&mut self, q: usize, index: u64) {
        let u = &self.queues[q];
        let place = u.unlanded(index).unwrap();
        let (c, r) = (u.domain, decode(&u.flights[place].copy));
        let landed = match r.op {
            0 => Ok(String::new()),
            1 => self.land_write(c, &r),
            2 => self.land_read(c, &r),
            3 | 4 => self.land_atomic(c, &r),
            _ => self.land_send(c, &r),
        };
        let Ok(shown) = landed else {
            self.queues[q].stopped = true;
            return self.show_refused(c, q, index, &r);
        };
        self.queues[q].flights[place].landed = true;
        match shown.as_str() {
            "" => {}
            "odd" => writeln!(self.events, "odd {q} {index}").unwrap(),
            line => self.events.push_str(line),
        }
    }

    fn show_refused(&mut self, c: usize, q: usize, index: u64, r: &Request) {
        let (local, remote) = if r.op == 1 { (ANY, REMOTE_WRITE) } else { (LOCAL_WRITE, REMOTE_READ) };
        if (r.op == 1 || r.op == 2) && r.length == 8 && self.spot(c, r.local, 8, local).is_ok() {
            if let Err(Refusal::Range(Kind::Table(table))) = self.spot(c, r.remote, 8, remote) {
                return writeln!(self.events, "fault {c} {table} {}", r.remote.1).unwrap();
            }
        }
        writeln!(self.events, "refused {q} {index}").unwrap();
    }

    fn land_write(&mut self, c: usize, r: &Request) -> Result<String, Refusal> {
        let (from, local) = self.spot(c, r.local, r.length, ANY)?;
        let (to, remote) = self.spot(c, r.remote, r.length, REMOTE_WRITE)?;
        self.memory.copy_within(from..from + r.length as usize, to);
        let offset = r.remote.1;
        Ok(match remote {
            _ if matches!(local, Kind::Table(_)) => "odd".to_string(),
            _ if remote.is_hidden() => String::new(),
            Kind::Vars if r.length == 8 && offset % 8 == 0 => format!("set {c} {} {}\n", offset / 8, word(&self.memory, to)),
            Kind::Table(table) if r.length == 8 => format!("store {c} {table} {offset} {}\n", word(&self.memory, to)),
            _ => "odd".to_string(),
        })
    }

    fn land_read(&mut self, c: usize, r: &Request) -> Result<String, Refusal> {
        let (to, local) = self.spot(c, r.local, r.length, LOCAL_WRITE)?;
        let (from, remote) = self.spot(c, r.remote, r.length, REMOTE_READ)?;
        self.memory.copy_within(from..from + r.length as usize, to);
        let (var, offset) = (r.local.1 / 8, r.remote.1);
        let is_word = r.length == 8;
        let is_var = local == Kind::Vars && is_word && r.local.1 % 8 == 0;
        Ok(match remote {
            Kind::Table(table) if is_var => format!("load {c} {var} {table} {offset} {}\n", word(&self.memory, to)),
            Kind::Table(table) if local.is_hidden() && is_word => {
                format!("look {c} {table} {offset} {}\n", word(&self.memory, to))
            }
            Kind::Table(_) => "odd".to_string(),
            _ if is_var => format!("set {c} {var} {}\n", word(&self.memory, to)),
            _ if local.is_hidden() => String::new(),
            _ => "odd".to_string(),
        })
    }

    fn land_atomic(&mut self, c: usize, r: &Request) -> Result<String, Refusal> {
        let (to, local) = self.spot(c, r.local, 8, LOCAL_WRITE)?;
        let (at, remote) = self.spot(c, r.remote, 8, ATOMIC)?;
        let old = word(&self.memory, at);
        let new = match r.op {
            4 => old.wrapping_add(r.first),
            _ if old == r.first => r.second,
            _ => old,
        };
        self.memory[at..at + 8].copy_from_slice(&new.to_be_bytes());
        self.memory[to..to + 8].copy_from_slice(&old.to_be_bytes());
        Ok(match remote {
            Kind::Vars if r.op == 4 && local.is_hidden() => format!("set {c} {} {new}\n", r.remote.1 / 8),
            _ if remote.is_hidden() && local.is_hidden() => String::new(),
            _ => "odd".to_string(),
        })
    }

    fn land_send(&mut self, c: usize, r: &Request) -> Result<String, Refusal> {
        let (at, local) = self.spot(c, r.local, r.length, ANY)?;
        if local != Kind::Control || r.length % 8 != 0 || r.length > 64 {
            return Ok("odd".to_string());
        }
        let words = (0..r.length as usize / 8).map(|k| format!(" {}", word(&self.memory, at + 8 * k)));
        Ok(format!("reply {c}{}\n", words.collect::<String>()))
    }
}

/// The fair schedule: chains in turn, and of each chain one queue until that queue has nothing useful to do.
struct Fair {
    chain: usize,
    queues: Vec<Vec<usize>>,
    cursors: Vec<usize>,
}

impl Fair {
    fn new(a: &Adapter) -> Fair {
        let chains = a.receives.len();
        let of = |c: usize| (0..a.queues.len()).filter(|q| a.queues[*q].domain == c).collect();
        Fair { chain: 0, queues: (0..chains).map(of).collect(), cursors: vec![0; chains] }
    }

    fn next(&mut self, a: &Adapter) -> Option<Action> {
        let chains = self.cursors.len();
        for chain in (self.chain..chains).chain(0..self.chain) {
            let delivery = Action::Deliver(chain);
            let act = if a.is_possible(delivery) { Some(delivery) } else { self.queue_act(a, chain) };
            if act.is_some() {
                self.chain = chain + 1;
                return act;
            }
        }
        None
    }

    fn queue_act(&mut self, a: &Adapter, chain: usize) -> Option<Action> {
        let (queues, cursor) = (&self.queues[chain], self.cursors[chain]);
        let turn = (cursor..queues.len()).chain(0..cursor);
        let (place, act) = turn.filter_map(|k| Some((k, act_of(a, queues[k])?))).next()?;
        self.cursors[chain] = place;
        Some(act)
    }
}

/// What a queue does first.
fn act_of(a: &Adapter, q: usize) -> Option<Action> {
    let u = &a.queues[q];
    if u.stopped {
        return None;
    }
    if a.is_possible(Action::Complete(q)) {
        return Some(Action::Complete(q));
    }
    if let Some(flight) = u.flights.iter().find(|f| !f.landed) {
        return Some(Action::Land(q, flight.index));
    }
    if a.may_start(u) {
        return Some(Action::Start(q));
    }
    let index = (u.head..u.limit.min(u.head + u.slots)).find(|index| u.held(*index).is_none())?;
    Some(Action::Fetch(q, index))
}

/// The action of a line of a schedule, if it has one.
fn action_in(line: &str) -> Option<Action> {
    let mut fields = line.split(' ');
    let verb = fields.next()?;
    let mut number = || fields.next()?.parse::<u64>().ok();
    Some(match verb {
        "d" => Action::Deliver(number()? as usize),
        "f" => Action::Fetch(number()? as usize, number()?),
        "s" => Action::Start(number()? as usize),
        "l" => Action::Land(number()? as usize, number()?),
        "c" => Action::Complete(number()? as usize),
        _ => return None,
    })
}

/// The chain and the bytes of a word CHAIN=HEX.
pub fn message_in(word: &str) -> Option<(usize, Vec<u8>)> {
    let (chain, hex) = word.split_once('=')?;
    let byte = |at| u8::from_str_radix(hex.get(at..at + 2)?, 16).ok();
    Some((chain.parse().ok()?, (0..hex.len()).step_by(2).map(byte).collect::<Option<_>>()?))
}

/// The adapter of an image's file and words CHAIN=HEX, or one line that says why there is none.
pub fn open_file(path: &str, words: &[String]) -> Result<Adapter, String> {
    let image = fs::read(path).map_err(|e| format!("{path}: {e}"))?;
    let messages: Option<_> = words.iter().map(|word| message_in(word)).collect();
    Adapter::open(&image, messages.ok_or("a message isn't CHAIN=HEX")?).map_err(|why| format!("{path}: {why}"))
}

/// Makes the fair steps, so many at most, and tells how many they were and how the run ended.
fn run_fair(a: &mut Adapter, most: u64) -> (u64, &'static str) {
    let mut fair = Fair::new(a);
    for made in 0..most {
        match fair.next(a) {
            Some(action) => a.step(action),
            None => return (made, "quiet"),
        }
    }
    (most, "steps")
}

fn run_schedule(a: &mut Adapter, text: &str) -> Result<(u64, &'static str), String> {
    let mut made = 0;
    for (number, line) in text.lines().enumerate().filter(|(_, line)| !line.is_empty() && !line.starts_with('#')) {
        let action = action_in(line).filter(|action| a.is_possible(*action));
        a.step(action.ok_or_else(|| format!("line {} of the schedule can't be made", number + 1))?);
        made += 1;
    }
    Ok((made, "schedule"))
}

fn run(words: &[String]) -> Result<(), String> {
    let [image, plan, value, messages @ ..] = words else {
        return Err("usage: plain_emulator IMAGE --fair N|--schedule FILE [CHAIN=HEX ..]".to_string());
    };
    let mut adapter = open_file(image, messages)?;
    let text = if plan == "--schedule" { fs::read_to_string(value).map_err(|e| format!("{value}: {e}"))? } else { String::new() };
    let begun = Instant::now();
    let (steps, end) = match plan.as_str() {
        "--schedule" => run_schedule(&mut adapter, &text)?,
        _ => run_fair(&mut adapter, value.parse().map_err(|_| format!("{value} is no number"))?),
    };
    let seconds = begun.elapsed().as_secs_f64();
    print!("{}end {end}\n", adapter.events);
    eprintln!("{steps} steps, {:.0} a second", steps as f64 / seconds);
    Ok(())
}

pub fn main() -> ExitCode {
    match run(&env::args().skip(1).collect::<Vec<_>>()) {
        Ok(()) => ExitCode::SUCCESS,
        Err(why) => {
            eprintln!("plain_emulator: {why}");
            ExitCode::FAILURE
        }
    }
}
