//! Compares the checker with the runs themselves on tiny traces.
//!
//! For one source, every trace that a run can reach is searched: removals and
//! swaps first, insertions and swaps after, each rule tested on the trace as
//! it stands. A reached trace remembers, event by event, which source event it
//! is, and the fewest steps that lead to it. Then the checker must answer 0 for
//! a target and a matching exactly when a run reaches that target with that
//! matching, and 10 to 16 otherwise; and the shortest run must have as many steps
//! as the matching costs. And no reached trace has fewer events than the shortened one,
//! which is reached.
//!
//! Three parts:
//!   all      every source, target and matching of up to 3 events a side
//!   equal    up to 4 events a side, every matching without a 10
//!   random   longer sources with every kind of event, and random candidates
//! and the same three with a list, `all-listed`, `equal-listed`, `random-listed`: a
//! register's loads return anything, and the target starts with another value there.

#[allow(dead_code)]
mod peer;
#[allow(dead_code)]
mod random;
mod rules;
#[allow(dead_code)]
mod steps;
#[allow(dead_code)]
mod texts;

use peer::{order, Event, Kind, ListFor, Locations, Memory, Word, CELLS, NO_LOCATIONS};
use random::Random;
use std::collections::HashMap;

/// Traces of this search have at most this many events: one byte each in a
/// state of 64 bits.
const MAX_LEN: usize = 8;
/// Room for the events of one trace, in words.
const ROOM: usize = MAX_LEN * peer::EVENT_WORDS;

/// What the traces of a search share.
struct Setting {
    /// The starting memory of sources, and that of targets.
    starts: [Memory; 2],
    /// The locations of plain accesses, registers among them.
    places: Vec<u8>,
    listed: Locations,
    list: Option<ListFor>,
}

impl Setting {
    fn new(start: Memory, places: &[u8]) -> Setting {
        Setting { starts: [start; 2], places: places.to_vec(), listed: NO_LOCATIONS, list: None }
    }

    /// With a list of one register, which starts elsewhere in the target.
    fn with_register(start: Memory, places: &[u8], register: u8) -> Setting {
        let mut setting = Setting::new(start, places);
        setting.starts[1][usize::from(register)] += 1;
        setting.listed[usize::from(register)] = true;
        setting.list = Some(ListFor { text: texts::list_text(&setting.listed), group: 1 });
        setting
    }

    /// Whether an event is a register's, which reads anything.
    fn is_register(&self, event: Event) -> bool {
        event.kind.is_plain() && self.listed[usize::from(event.place)]
    }
}

// -------------------------------------------------------------------- states

// A state lists the events of a trace, the first in the lowest byte; 0 ends
// it. A byte up to MAX_LEN is a source event; one from INSERTED on is an
// inserted load, with its location and its value.

const INSERTED: u8 = 0x80;

fn inserted_code(location: u8, value: Word) -> u8 {
    assert!(location < 8 && value < 16);
    INSERTED | location << 4 | value as u8
}

fn pack(codes: &[u8]) -> u64 {
    codes.iter().rev().fold(0, |state, &code| state << 8 | u64::from(code))
}

fn unpack(state: u64) -> Vec<u8> {
    state.to_le_bytes().into_iter().take_while(|&code| code != 0).collect()
}

fn load(place: u8, first: Word, order: u8) -> Event {
    Event { kind: Kind::Load, place, order, first, second: 0, code: 0 }
}

fn event_of(code: u8, source: &[Event]) -> Event {
    if code >= INSERTED {
        load(code >> 4 & 7, Word::from(code & 15), order::USED)
    } else {
        source[usize::from(code) - 1]
    }
}

// ------------------------------------------------------------------ the runs

/// States, each with the fewest steps that lead to it.
type Reached = HashMap<u64, usize>;

/// Closes states under the steps that `next` lists, those that are reached in
/// the fewest first.
fn closure(start: Reached, next: impl Fn(u64, &mut Vec<u64>)) -> Reached {
    let mut levels: Vec<Vec<u64>> = vec![];
    let mut found = Reached::new();
    let mut reach = |levels: &mut Vec<Vec<u64>>, state: u64, steps: usize| {
        let known = found.entry(state).or_insert(usize::MAX);
        if steps < *known {
            *known = steps;
            levels.resize(levels.len().max(steps + 1), vec![]);
            levels[steps].push(state);
        }
        *known
    };
    for (state, steps) in start {
        reach(&mut levels, state, steps);
    }
    let mut steps = 0;
    let mut after = vec![];
    while steps < levels.len() {
        for state in std::mem::take(&mut levels[steps]) {
            if reach(&mut levels, state, steps) == steps {
                next(state, &mut after);
                for state in after.drain(..) {
                    reach(&mut levels, state, steps + 1);
                }
            }
        }
        steps += 1;
    }
    found
}

fn swaps(listed: &Locations, codes: &[u8], trace: &[Event], steps: &mut Vec<u64>) {
    for at in 1..codes.len() {
        if rules::may_swap(listed, trace, at - 1) {
            let mut swapped = codes.to_vec();
            swapped.swap(at - 1, at);
            steps.push(pack(&swapped));
        }
    }
}

fn removals(listed: &Locations, codes: &[u8], trace: &[Event], steps: &mut Vec<u64>) {
    for at in 0..codes.len() {
        if rules::may_remove(listed, trace, at) {
            let mut shorter = codes.to_vec();
            shorter.remove(at);
            steps.push(pack(&shorter));
        }
    }
}

fn insertions(setting: &Setting, codes: &[u8], trace: &[Event], steps: &mut Vec<u64>) {
    for at in 0..=codes.len() {
        for &location in &setting.places {
            if let Some(value) = rules::insertable_value(&setting.listed, trace, at, location) {
                let mut longer = codes.to_vec();
                longer.insert(at, inserted_code(location, value));
                steps.push(pack(&longer));
            }
        }
    }
}

/// Every trace of at most `limit` events that a run reaches, inserted ones
/// counted, and some longer ones that only removals have touched.
fn reached(setting: &Setting, source: &[Event], limit: usize) -> Reached {
    let listed = &setting.listed;
    let identity: Vec<u8> = (1..=source.len() as u8).collect();
    let decode = |codes: &[u8]| -> Vec<Event> { codes.iter().map(|&code| event_of(code, source)).collect() };
    let removed = closure(Reached::from([(pack(&identity), 0)]), |state, steps| {
        let codes = unpack(state);
        let trace = decode(&codes);
        removals(listed, &codes, &trace, steps);
        swaps(listed, &codes, &trace, steps);
    });
    closure(removed, |state, steps| {
        let codes = unpack(state);
        let trace = decode(&codes);
        if codes.len() < limit {
            insertions(setting, &codes, &trace, steps);
        }
        swaps(listed, &codes, &trace, steps);
    })
}

// ---------------------------------------------------------------- comparison

#[derive(Default)]
struct Tally {
    compared: u64,
    answers: [u64; 19],
    sources: u64,
    differences: u64,
}

impl Tally {
    fn add(&mut self, other: &Tally) {
        self.compared += other.compared;
        self.sources += other.sources;
        self.differences += other.differences;
        for (sum, count) in self.answers.iter_mut().zip(other.answers) {
            *sum += count;
        }
    }

    fn print(&self, part: &str) {
        print!("{part}: {} sources, {} cases compared, {} differences; answers", self.sources, self.compared, self.differences);
        for (number, count) in self.answers.iter().enumerate().filter(|(_, &count)| count > 0) {
            print!(" {number}:{count}");
        }
        println!();
    }
}

/// One source with its text and all that its runs reach.
struct Bench<'a> {
    setting: &'a Setting,
    head: Vec<u8>,
    source: Vec<Event>,
    source_text: Vec<u8>,
    reached: Reached,
    /// Event lines by event, since the same few come again and again.
    lines: HashMap<[Word; 6], Vec<u8>>,
    target_text: Vec<u8>,
    matching_text: Vec<u8>,
    tally: Tally,
}

impl<'a> Bench<'a> {
    fn new(setting: &'a Setting, source: Vec<Event>, limit: usize) -> Bench<'a> {
        let [start, target_start] = &setting.starts;
        let mut bench = Bench {
            setting,
            head: texts::trace_head(target_start).into_bytes(),
            source_text: texts::trace_text(start, &source),
            reached: reached(setting, &source, limit),
            source,
            lines: HashMap::new(),
            target_text: vec![],
            matching_text: vec![],
            tally: Tally { sources: 1, ..Tally::default() },
        };
        bench.shorten();
        bench
    }

    /// The shortened trace is reached, and none that is reached has fewer events.
    fn shorten(&mut self) {
        let stays = peer::staying(&self.setting.listed, &self.source);
        let codes: Vec<u8> = (1..).zip(&stays).filter(|(_, &stays)| stays).map(|(code, _)| code).collect();
        let least = self.reached.keys().map(|&state| unpack(state).len()).min();
        if !self.reached.contains_key(&pack(&codes)) || least != Some(codes.len()) {
            self.tally.differences += 1;
            let source = String::from_utf8_lossy(&self.source_text);
            let list = String::from_utf8_lossy(self.setting.list.as_ref().map_or(&[], |list| &list.text));
            println!("DIFFERENCE shortened to {codes:?}, least {least:?}\n{list}{source}");
        }
    }

    fn answer(&mut self, target: &[Event], entries: &[u16]) -> u32 {
        self.target_text.clear();
        self.target_text.extend_from_slice(&self.head);
        for event in target {
            let line = self.lines.entry(event.words()).or_insert_with(|| texts::event_line(event).into_bytes());
            self.target_text.extend_from_slice(line);
        }
        self.matching_text.clear();
        self.matching_text.extend_from_slice(b"match\t1\n");
        for &entry in entries {
            if entry == 0 {
                self.matching_text.extend_from_slice(b"gone\n");
            } else {
                self.matching_text.extend_from_slice(b"keep\t");
                self.matching_text.extend_from_slice(&[b'0' + entry as u8, b'\n']);
            }
        }
        let (mut room1, mut room2, mut room3) = ([0; ROOM], [0; ROOM], [0; MAX_LEN]);
        let texts = (&self.source_text, &self.target_text, &self.matching_text);
        peer::check(self.setting.list.as_ref(), texts.0, texts.1, texts.2, &mut room1, &mut room2, &mut room3).answer.number
    }

    /// The steps of the shortest run that reaches the target with the matching.
    fn shortest(&self, target: &[Event], entries: &[u16]) -> Option<usize> {
        let mut codes = [0; MAX_LEN];
        for (index, &entry) in entries.iter().enumerate().filter(|(_, &entry)| entry != 0) {
            let at = usize::from(entry) - 1;
            let unmarked = |event: Event| match event.kind {
                Kind::Load => Event { order: order::NONE, ..event },
                _ => event,
            };
            if unmarked(self.source[index]) != unmarked(target[at]) {
                return None;
            }
            codes[at] = index as u8 + 1;
        }
        for (code, event) in codes.iter_mut().zip(target) {
            if *code == 0 {
                if event.kind != Kind::Load {
                    return None;
                }
                *code = inserted_code(event.place, event.first);
            }
        }
        self.reached.get(&pack(&codes[..target.len()])).copied()
    }

    /// Compares one case whose target is lawful.
    fn compare(&mut self, target: &[Event], entries: &[u16]) {
        let answer = self.answer(target, entries);
        let shortest = self.shortest(target, entries);
        let cost = || steps::cost(&entries.iter().map(|&entry| usize::from(entry)).collect::<Vec<_>>(), target.len());
        let agree = shortest.map_or_else(|| (10..=16).contains(&answer), |steps| answer == 0 && steps == cost());
        if !agree {
            self.tally.differences += 1;
            let source = String::from_utf8_lossy(&self.source_text);
            let target = String::from_utf8_lossy(&self.target_text);
            let list = String::from_utf8_lossy(self.setting.list.as_ref().map_or(&[], |list| &list.text));
            println!("DIFFERENCE shortest {shortest:?} answer {answer} cost {}\n{list}{source}{target}{entries:?}", cost());
        }
        self.tally.compared += 1;
        self.tally.answers[answer as usize] += 1;
    }
}

// ------------------------------------------------------------ small alphabets

/// An event whose value, if it reads no register, is still to be filled in.
#[derive(Clone, Copy)]
struct Shape(Event);

fn shape(kind: Kind, place: u8, order: u8, first: Word, second: Word) -> Shape {
    Shape(Event { kind, place, order, first, second, code: 0 })
}

impl Shape {
    /// The event on a memory: what it reads is what the memory holds.
    fn on(self, setting: &Setting, memory: &Memory) -> Event {
        let mut event = self.0;
        if !setting.is_register(event) && matches!(event.kind, Kind::Load | Kind::ALoad | Kind::Rmw | Kind::Add | Kind::Add64 | Kind::CmpFail) {
            event.first = memory[usize::from(event.place)];
        }
        event
    }
}

/// Whether the event is right on the memory, and the memory after it.
fn step(setting: &Setting, memory: &mut Memory, event: Event) -> bool {
    let cell = &mut memory[usize::from(event.place)];
    let (right, after) = match event.kind {
        Kind::Load | Kind::ALoad | Kind::CmpFail => (*cell == event.first, *cell),
        Kind::Store | Kind::AStore => (true, event.first),
        Kind::Rmw => (*cell == event.first, event.second),
        Kind::Add => (*cell == event.first, (event.first + event.second) % (1 << 32)),
        Kind::Add64 => (*cell == event.first, event.first.wrapping_add(event.second)),
        Kind::Fence | Kind::Lock | Kind::Unlock => return true,
    };
    *cell = after;
    right || setting.is_register(event)
}

/// Two locations, two values, both marks, a lock and an atomic load.
fn tiny_alphabet() -> Vec<Shape> {
    let mut shapes = vec![shape(Kind::Lock, 0, order::NONE, 0, 0), shape(Kind::ALoad, 2, order::ACQ, 0, 0)];
    for location in TINY_LOCATIONS {
        for mark in [order::USED, order::UNUSED] {
            shapes.push(shape(Kind::Load, location, mark, 0, 0));
        }
        for value in [0, 1] {
            shapes.push(shape(Kind::Store, location, order::NONE, value, 0));
        }
    }
    shapes
}

const TINY_LOCATIONS: [u8; 2] = [0, 1];

/// A location and a register, two values, both marks, and a lock whose number is the
/// register's.
fn listed_alphabet() -> Vec<Shape> {
    let [plain, register] = TINY_LOCATIONS;
    let mut shapes = vec![shape(Kind::Lock, register, order::NONE, 0, 0)];
    for (mark, value) in [(order::USED, 0), (order::UNUSED, 1)] {
        shapes.push(shape(Kind::Load, plain, mark, 0, 0));
        shapes.push(shape(Kind::Load, register, mark, value, 0));
        shapes.push(shape(Kind::Store, plain, order::NONE, value, 0));
        shapes.push(shape(Kind::Store, register, order::NONE, value, 0));
    }
    shapes
}

/// The alphabet without a list and with one, each in its setting.
fn tiny(lists: bool) -> (Vec<Shape>, Setting) {
    match lists {
        false => (tiny_alphabet(), Setting::new([0; CELLS], &TINY_LOCATIONS)),
        true => (listed_alphabet(), Setting::with_register([0; CELLS], &TINY_LOCATIONS, TINY_LOCATIONS[1])),
    }
}

/// All lawful traces of at most `limit` events over the alphabet.
fn all_traces(alphabet: &[Shape], setting: &Setting, limit: usize) -> Vec<Vec<Event>> {
    let mut traces = vec![];
    let mut todo = vec![(vec![], setting.starts[0])];
    while let Some((trace, memory)) = todo.pop() {
        if trace.len() < limit {
            for shape in alphabet {
                let mut longer: Vec<Event> = trace.clone();
                let mut after = memory;
                longer.push(shape.on(setting, &memory));
                step(setting, &mut after, shape.on(setting, &memory));
                todo.push((longer, after));
            }
        }
        traces.push(trace);
    }
    traces
}

/// All matchings of `source` entries to `target` events.
fn all_matchings(source: usize, target: usize) -> Vec<Vec<u16>> {
    let mut matchings: Vec<Vec<u16>> = vec![vec![]];
    for _ in 0..source {
        let mut longer = vec![];
        for matching in &matchings {
            for entry in (0..=target as u16).filter(|entry| *entry == 0 || !matching.contains(entry)) {
                longer.push([matching.as_slice(), &[entry]].concat());
            }
        }
        matchings = longer;
    }
    matchings
}

/// Runs a job for each source on all cores and sums up the tallies.
fn on_all_cores(sources: &[Vec<Event>], job: impl Fn(&[Event]) -> Tally + Sync) -> Tally {
    let cores = std::thread::available_parallelism().map_or(1, |cores| cores.get());
    let mut total = Tally::default();
    std::thread::scope(|scope| {
        let workers: Vec<_> = (0..cores)
            .map(|core| {
                let job = &job;
                scope.spawn(move || {
                    let mut sum = Tally::default();
                    for source in sources.iter().skip(core).step_by(cores) {
                        sum.add(&job(source));
                    }
                    sum
                })
            })
            .collect();
        for worker in workers {
            total.add(&worker.join().expect("a worker failed"));
        }
    });
    total
}

/// Every source, target and matching of at most `limit` events a side.
fn all_cases(lists: bool, limit: usize) -> Tally {
    let (alphabet, setting) = tiny(lists);
    // What a trace may be does not hang on the starts of registers.
    let traces = all_traces(&alphabet, &setting, limit);
    let matchings: Vec<Vec<Vec<Vec<u16>>>> =
        (0..=limit).map(|source| (0..=limit).map(|target| all_matchings(source, target)).collect()).collect();
    on_all_cores(&traces, |source| {
        let mut bench = Bench::new(&setting, source.to_vec(), limit);
        for target in &traces {
            for entries in &matchings[source.len()][target.len()] {
                bench.compare(target, entries);
            }
        }
        bench.tally
    })
}

/// Fills the target position by position with source events or with events of
/// the alphabet, so that each kept event equals its source. Marks of target
/// loads alternate, as neither side may depend on them.
fn fill(bench: &mut Bench, alphabet: &[Shape], limit: usize, target: &mut Vec<Event>, entries: &mut Vec<u16>, memory: &Memory) {
    bench.compare(target, entries);
    if target.len() == limit {
        return;
    }
    let setting = bench.setting;
    let mark = if bench.tally.compared % 2 == 0 { order::USED } else { order::UNUSED };
    let marked = |event: Event| match event.kind {
        Kind::Load => Event { order: mark, ..event },
        _ => event,
    };
    for index in 0..entries.len() {
        let event = marked(bench.source[index]);
        let mut after = *memory;
        if entries[index] == 0 && step(setting, &mut after, event) {
            target.push(event);
            entries[index] = target.len() as u16;
            fill(bench, alphabet, limit, target, entries, &after);
            entries[index] = 0;
            target.pop();
        }
    }
    for shape in alphabet.iter().filter(|shape| shape.0.order != order::UNUSED) {
        let event = marked(shape.on(setting, memory));
        let mut after = *memory;
        step(setting, &mut after, event);
        target.push(event);
        fill(bench, alphabet, limit, target, entries, &after);
        target.pop();
    }
}

/// Up to `limit` events a side, every matching whose kept events are equal.
fn equal_cases(lists: bool, limit: usize) -> Tally {
    let (alphabet, setting) = tiny(lists);
    let sources = all_traces(&alphabet, &setting, limit);
    on_all_cores(&sources, |source| {
        let mut bench = Bench::new(&setting, source.to_vec(), limit);
        fill(&mut bench, &alphabet, limit, &mut vec![], &mut vec![0; source.len()], &setting.starts[1]);
        // Everything that the runs reach has been met: nothing was skipped.
        let within = bench.reached.keys().filter(|&&state| unpack(state).len() <= limit).count() as u64;
        assert_eq!(within, bench.tally.answers[0], "a reached trace was not among the cases");
        bench.tally
    })
}

// -------------------------------------------------------------------- random

const RANDOM_LOCATIONS: [u8; 2] = [1, 4];
/// With a list: the first is a register, and the number of the mutex.
const RANDOM_LISTED: [u8; 3] = [1, 4, 2];
const RANDOM_ATOMIC: u8 = 3;
const RANDOM_LIMIT: usize = 7;

fn random_shape(random: &mut Random, setting: &Setting) -> Shape {
    let place = random.pick(&setting.places);
    let value = random.below(3) as Word;
    match random.below(14) {
        0..=4 => shape(Kind::Load, place, random.pick(&[order::USED, order::UNUSED]), value, 0),
        5..=10 => shape(Kind::Store, place, order::NONE, value, 0),
        11 => shape(Kind::Fence, 0, order::SC, 0, 0),
        12 => shape(random.pick(&[Kind::Lock, Kind::Unlock]), 1, order::NONE, 0, 0),
        _ => match random.below(5) {
            0 => shape(Kind::ALoad, RANDOM_ATOMIC, order::RLX, 0, 0),
            1 => shape(Kind::AStore, RANDOM_ATOMIC, order::REL, value, 0),
            2 => shape(Kind::Rmw, RANDOM_ATOMIC, order::AR, 0, value),
            3 => shape(Kind::CmpFail, RANDOM_ATOMIC, order::RLX, 0, 0),
            _ => shape(Kind::Add, RANDOM_ATOMIC, order::SC, 0, value),
        },
    }
}

/// A target and its matching, being built: each event with its source number,
/// 0 for none.
type Candidate = Vec<(Event, u8)>;

fn random_change(random: &mut Random, setting: &Setting, candidate: &mut Candidate, source: &[Event]) {
    let at = random.below(candidate.len() + 1);
    match random.below(5) {
        0 if at < candidate.len() => {
            candidate.remove(at);
        }
        1 if at + 1 < candidate.len() => candidate.swap(at, at + 1),
        2 if candidate.len() < RANDOM_LIMIT => {
            let mut guess = [0; CELLS];
            guess.fill_with(|| random.below(3) as Word);
            let event = random_shape(random, setting).on(setting, &guess);
            candidate.insert(at, (event, 0));
        }
        3 if at < candidate.len() => candidate[at].1 = 0,
        _ if at < candidate.len() => {
            let number = random.below(source.len()) as u8 + 1;
            if candidate.iter().all(|item| item.1 != number) {
                candidate[at].1 = number;
            }
        }
        _ => {}
    }
}

fn is_lawful(setting: &Setting, target: &[Event]) -> bool {
    let mut memory = setting.starts[1];
    target.iter().all(|&event| step(setting, &mut memory, event))
}

fn random_setting(random: &mut Random, lists: bool) -> Setting {
    let mut start = [0; CELLS];
    let places: &[u8] = if lists { &RANDOM_LISTED } else { &RANDOM_LOCATIONS };
    for &location in places {
        start[usize::from(location)] = random.below(3) as Word;
    }
    match lists {
        false => Setting::new(start, places),
        true => Setting::with_register(start, places, places[0]),
    }
}

fn random_bench(random: &mut Random, lists: bool, candidates: usize) -> Tally {
    let setting = random_setting(random, lists);
    let mut memory = setting.starts[0];
    let mut source = vec![];
    for _ in 0..4 + random.below(4) {
        let event = random_shape(random, &setting).on(&setting, &memory);
        step(&setting, &mut memory, event);
        source.push(event);
    }
    let mut bench = Bench::new(&setting, source, RANDOM_LIMIT);
    let mut reached: Vec<u64> = bench.reached.keys().copied().collect();
    reached.sort_unstable();
    for _ in 0..candidates {
        let mut candidate: Candidate = unpack(random.pick(&reached))
            .into_iter()
            .map(|code| (event_of(code, &bench.source), if code >= INSERTED { 0 } else { code }))
            .collect();
        for _ in 0..random.below(4) {
            random_change(random, &setting, &mut candidate, &bench.source);
        }
        let target: Vec<Event> = candidate.iter().map(|item| item.0).collect();
        let mut entries = vec![0; bench.source.len()];
        for (at, item) in candidate.iter().enumerate().filter(|(_, item)| item.1 != 0) {
            entries[usize::from(item.1) - 1] = at as u16 + 1;
        }
        if is_lawful(&setting, &target) {
            bench.compare(&target, &entries);
        }
    }
    bench.tally
}

fn random_cases(seed: u64, lists: bool, sources: usize, candidates: usize) -> Tally {
    // The source traces are drawn inside, so only the seeds are shared out.
    let seeds: Vec<Vec<Event>> = vec![vec![]; sources];
    let index = std::sync::atomic::AtomicU64::new(0);
    on_all_cores(&seeds, |_| {
        let mine = index.fetch_add(1, std::sync::atomic::Ordering::Relaxed);
        random_bench(&mut Random::new(seed.wrapping_add(mine.wrapping_mul(0x1_0000_0001))), lists, candidates)
    })
}

/// `brute [part [seed]]`; without a part, all six.
fn main() {
    let arguments: Vec<String> = std::env::args().skip(1).collect();
    let part = arguments.first().map_or("", |part| part.as_str());
    let seed = arguments.get(1).and_then(|seed| seed.parse().ok()).unwrap_or(1);
    let mut total = Tally::default();
    let mut run = |name: &str, tally: &dyn Fn() -> Tally| {
        if part.is_empty() || part == name {
            let tally = tally();
            tally.print(name);
            total.add(&tally);
        }
    };
    for (lists, names) in [(false, ["all", "equal", "random"]), (true, ["all-listed", "equal-listed", "random-listed"])] {
        run(names[0], &|| all_cases(lists, 3));
        run(names[1], &|| equal_cases(lists, 4));
        run(names[2], &|| random_cases(seed, lists, 40_000, 200));
    }
    total.print("total");
    if total.differences > 0 {
        std::process::exit(1);
    }
}
