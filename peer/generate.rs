//! Random triples of texts. A random source is changed by lawful removals,
//! swaps and insertions to a target, and the matching is kept along; then in
//! most a fault is planted, in the moves, the events, the matching, the rooms
//! or the bytes. Those with a list have registers, whose loads return anything and
//! whose starts differ. Traces of form 2 are made from those of form 1 by zero lines,
//! and code lines at will; from them come moves between the forms, and writings in
//! both.

use crate::cases::Case;
use crate::forms::{Move, Writing, PLENTY};
use crate::peer::{self, order, Answer, Event, Form, Kind, ListFor, Locations, Memory, Word};
use crate::peer::{CELLS, EVENT_WORDS, MAX_EVENTS, MAX_REGISTERS, NO_LOCATIONS};
use crate::random::Random;
use crate::{rules, texts};

/// Numbers of one to three digits, in an order that differs from that of texts.
const PLACES: [u8; 12] = [0, 1, 2, 3, 9, 10, 11, 99, 100, 199, 254, 255];
/// Values of a counter of 32 bits, and of 64.
const NARROW_VALUES: [Word; 10] = [0, 1, 2, 7, 10, 99, 100, 4_294_967_290, 4_294_967_294, 4_294_967_295];
const VALUES: [Word; 14] = [
    0, 1, 2, 10, 99, 4_294_967_294, 4_294_967_295, 4_294_967_296, 4_294_967_297, 8_589_934_591, 9_223_372_036_854_775_808,
    18_446_744_069_414_584_320, 18_446_744_073_709_551_614, 18_446_744_073_709_551_615,
];
const UPDATES: [Kind; 3] = [Kind::Rmw, Kind::Add, Kind::Add64];
const RMW_ORDERS: [u8; 5] = [order::RLX, order::ACQ, order::REL, order::AR, order::SC];

/// The few locations, mutexes and values of one trace: few, so that they meet.
struct World {
    plain: Vec<u8>,
    atomic: Vec<u8>,
    mutexes: Vec<u8>,
    values: Vec<Word>,
    /// What `rmw` and the additions are.
    updates: &'static [Kind],
    /// One event in so many synchronises.
    sync_rarity: usize,
    /// The locations that are registers; none in a world without a list.
    listed: Option<Locations>,
    /// The group whose registers they are, and those of the other, where groups share
    /// the list.
    shared: Option<(Word, Locations)>,
}

fn shuffled<T: Copy>(random: &mut Random, items: &[T]) -> Vec<T> {
    let mut items = items.to_vec();
    for last in (1..items.len()).rev() {
        items.swap(last, random.below(last + 1));
    }
    items
}

impl World {
    fn new(random: &mut Random) -> World {
        let places = shuffled(random, &PLACES);
        let plain = 1 + random.below(3);
        // Every other world has no more than document 01 knows.
        let wide = random.once_in(2);
        let mut values = shuffled(random, if wide { &VALUES } else { &NARROW_VALUES });
        values.truncate(1 + random.below(3));
        World {
            plain: places[..plain].to_vec(),
            atomic: places[plain..plain + 2].to_vec(),
            mutexes: shuffled(random, &PLACES)[..2].to_vec(),
            values,
            updates: if wide { &UPDATES } else { &UPDATES[..2] },
            sync_rarity: 3 + random.below(8),
            listed: None,
            shared: None,
        }
    }

    /// A world with a list. It names no location of atomic use.
    fn with_list(random: &mut Random) -> World {
        let mut world = World::new(random);
        let mut listed = NO_LOCATIONS;
        for place in world.plain.iter().chain(&PLACES).filter(|place| !world.atomic.contains(place)) {
            listed[usize::from(*place)] |= random.once_in(3);
        }
        world.listed = Some(listed);
        world
    }

    /// The same for a group of a list that it shares with the other, which has any
    /// registers.
    fn with_group(random: &mut Random, group: Word) -> World {
        let mut world = World::with_list(random);
        world.shared = Some((group, any_locations(random)));
        world
    }

    fn listed(&self) -> &Locations {
        self.listed.as_ref().unwrap_or(&NO_LOCATIONS)
    }

    /// What a load reads: of a register anything, else what the memory holds.
    fn read(&self, random: &mut Random, memory: &Memory, place: u8) -> Word {
        match self.listed()[usize::from(place)] {
            true => random.pick(&self.values),
            false => memory[usize::from(place)],
        }
    }

    /// All values that a fault may set.
    fn all_values(&self) -> &'static [Word] {
        if self.updates.contains(&Kind::Add64) {
            &VALUES
        } else {
            &NARROW_VALUES
        }
    }

    fn start(&self, random: &mut Random) -> Memory {
        let mut start = [0; CELLS];
        for &place in self.plain.iter().chain(&self.atomic) {
            if random.once_in(2) {
                start[usize::from(place)] = random.pick(&self.values);
            }
        }
        start
    }

    /// An event that is right on the memory.
    fn event(&self, random: &mut Random, memory: &Memory) -> Event {
        if random.once_in(self.sync_rarity) {
            return self.sync_event(random, memory);
        }
        let place = random.pick(&self.plain);
        if random.once_in(2) {
            let mark = random.pick(&[order::USED, order::USED, order::UNUSED]);
            Event { kind: Kind::Load, place, order: mark, first: self.read(random, memory, place), second: 0, code: 0 }
        } else {
            Event { kind: Kind::Store, place, order: order::NONE, first: random.pick(&self.values), second: 0, code: 0 }
        }
    }

    fn sync_event(&self, random: &mut Random, memory: &Memory) -> Event {
        let others = [Kind::ALoad, Kind::AStore, Kind::Fence, Kind::Lock, Kind::Unlock];
        let kind = random.pick(&[self.updates, &others].concat());
        let place = random.pick(&self.atomic);
        let held = memory[usize::from(place)];
        let value = random.pick(&self.values);
        // What does not fit a counter of 32 bits is counted in 64.
        let kind = if held.max(value) > kind.last_value() { Kind::Add64 } else { kind };
        let (place, orders, first, second): (u8, &[u8], Word, Word) = match kind {
            Kind::ALoad => (place, &[order::RLX, order::ACQ, order::SC], held, 0),
            Kind::AStore => (place, &[order::RLX, order::REL, order::SC], value, 0),
            // A new value equal to the old is a write of the same value.
            Kind::Rmw => (place, &RMW_ORDERS, held, random.pick(&[value, held])),
            Kind::Add | Kind::Add64 => (place, &RMW_ORDERS, held, value),
            Kind::Fence => (0, &RMW_ORDERS[1..], 0, 0),
            _ => (random.pick(&self.mutexes), &[order::NONE], 0, 0),
        };
        Event { kind, place, order: random.pick(orders), first, second, code: 0 }
    }
}

/// The memory after an event, whatever the event claims to have read.
fn step(memory: &mut Memory, event: &Event) {
    let cell = &mut memory[usize::from(event.place)];
    match event.kind {
        Kind::Store | Kind::AStore => *cell = event.first,
        Kind::Rmw => *cell = event.second,
        Kind::Add => *cell = event.first.wrapping_add(event.second) % (1 << 32),
        Kind::Add64 => *cell = event.first.wrapping_add(event.second),
        _ => {}
    }
}

/// Whether triples have a list.
#[derive(Clone, Copy)]
pub enum Lists {
    Without,
    With,
    /// Of form 2, for this group.
    Grouped(Word),
}

/// A triple before it becomes texts. Each target event has its source number,
/// 0 for none.
struct Draft {
    world: World,
    start: Memory,
    source: Vec<Event>,
    target: Vec<Event>,
    numbers: Vec<u16>,
}

impl Draft {
    fn new(random: &mut Random, lists: Lists, events: usize) -> Draft {
        let world = match lists {
            Lists::Without => World::new(random),
            Lists::With => World::with_list(random),
            Lists::Grouped(group) => World::with_group(random, group),
        };
        let start = world.start(random);
        let mut memory = start;
        let mut source = vec![];
        for _ in 0..events {
            let event = world.event(random, &memory);
            step(&mut memory, &event);
            source.push(event);
        }
        let numbers = (1..=events as u16).collect();
        Draft { world, start, target: source.clone(), source, numbers }
    }

    fn remove(&mut self, at: usize) {
        self.target.remove(at);
        self.numbers.remove(at);
    }

    fn swap(&mut self, at: usize) {
        self.target.swap(at, at + 1);
        self.numbers.swap(at, at + 1);
    }

    fn insert(&mut self, at: usize, event: Event) {
        self.target.insert(at, event);
        self.numbers.insert(at, 0);
    }

    fn lawful_swap(&mut self, random: &mut Random) {
        let at = random.below(self.target.len().max(1));
        if at + 1 < self.target.len() && rules::may_swap(self.world.listed(), &self.target, at) {
            self.swap(at);
        }
    }

    fn lawful_removal(&mut self, random: &mut Random) {
        let at = random.below(self.target.len().max(1));
        if at < self.target.len() && rules::may_remove(self.world.listed(), &self.target, at) {
            self.remove(at);
        }
    }

    fn lawful_insertion(&mut self, random: &mut Random) {
        let at = random.below(self.target.len() + 1);
        let place = random.pick(&self.world.plain);
        if self.target.len() < MAX_EVENTS {
            if let Some(first) = rules::insertable_value(self.world.listed(), &self.target, at, place) {
                let mark = random.pick(&[order::USED, order::UNUSED]);
                self.insert(at, Event { kind: Kind::Load, place, order: mark, first, second: 0, code: 0 });
            }
        }
    }

    /// A run: removals and swaps, then insertions and swaps. Marks are free.
    fn change(&mut self, random: &mut Random) {
        let tries = random.below(3) * self.source.len();
        for _ in 0..tries {
            self.lawful_removal(random);
            self.lawful_swap(random);
        }
        for _ in 0..tries.min(1 + random.below(4)) {
            self.lawful_insertion(random);
            self.lawful_swap(random);
        }
        for event in self.target.iter_mut().filter(|event| event.kind == Kind::Load) {
            if random.once_in(4) {
                event.order = random.pick(&[order::USED, order::UNUSED]);
            }
        }
    }

    /// A removal, a swap or an insertion that no rule was asked about.
    fn change_unasked(&mut self, random: &mut Random) {
        let at = random.below(self.target.len() + 1);
        match random.below(3) {
            0 if at < self.target.len() => self.remove(at),
            1 if at + 1 < self.target.len() => self.swap(at),
            _ => {
                let mut memory = self.start;
                self.target[..at].iter().for_each(|event| step(&mut memory, event));
                let event = self.world.event(random, &memory);
                self.insert(at, event);
            }
        }
    }

    /// One field of one event changed, in the target or in both traces.
    fn change_event(&mut self, random: &mut Random) {
        if self.target.is_empty() {
            return;
        }
        let at = random.below(self.target.len());
        let event = &mut self.target[at];
        match random.below(4) {
            0 => event.first = random.pick(self.world.all_values()),
            1 => event.place = random.pick(&PLACES),
            2 if UPDATES.contains(&event.kind) => event.second = random.pick(self.world.all_values()),
            2 if matches!(event.kind, Kind::Lock | Kind::Unlock) => event.kind = random.pick(&[Kind::Lock, Kind::Unlock]),
            _ if UPDATES.contains(&event.kind) => {
                event.kind = random.pick(self.world.updates);
                event.order = random.pick(&RMW_ORDERS);
            }
            _ => event.order = random.pick(&RMW_ORDERS).max(event.order),
        }
        let (changed, number) = (*event, self.numbers[at]);
        if number != 0 && random.once_in(2) {
            self.source[usize::from(number) - 1] = changed;
        }
    }

    fn entries(&self) -> Vec<u16> {
        let mut entries = vec![0; self.source.len()];
        for (index, &number) in self.numbers.iter().enumerate().filter(|(_, &number)| number != 0) {
            entries[usize::from(number) - 1] = index as u16 + 1;
        }
        entries
    }

    /// The starting memory of the target, which differs at will in registers.
    fn target_start(&self, random: &mut Random) -> Memory {
        let mut start = self.start;
        for (location, _) in self.world.listed().iter().enumerate().filter(|(_, &listed)| listed) {
            if random.once_in(2) {
                start[location] = random.pick(&self.world.values);
            }
        }
        start
    }

    /// The same, changed in one cell besides.
    fn other_start(&self, random: &mut Random) -> Memory {
        let mut start = self.target_start(random);
        let place = random.pick(&[self.world.plain.as_slice(), &self.world.atomic, &PLACES].concat());
        start[usize::from(place)] = random.pick(self.world.all_values());
        start
    }

    fn list(&self) -> Option<ListFor> {
        let listed = self.world.listed.as_ref()?;
        Some(match &self.world.shared {
            None => ListFor { text: texts::list_text(listed), group: 1 },
            Some((1, others)) => ListFor { text: texts::group_text([listed, others]), group: 1 },
            Some((group, others)) => ListFor { text: texts::group_text([others, listed]), group: *group },
        })
    }

    /// One location more on the list, seldom one of atomic use.
    fn list_one(&mut self, random: &mut Random) {
        let place = random.pick(&[self.world.plain.as_slice(), &self.world.atomic, &PLACES].concat());
        if let Some(listed) = &mut self.world.listed {
            listed[usize::from(place)] = true;
        }
    }
}

fn change_entries(random: &mut Random, entries: &mut Vec<u16>, target: usize) {
    let at = random.below(entries.len() + 1);
    match random.below(5) {
        0 if at < entries.len() => {
            entries.remove(at);
        }
        1 => entries.insert(at, random.below(target + 1) as u16),
        2 if at < entries.len() => entries[at] = (target + 1 + random.below(3)) as u16,
        3 if at < entries.len() => entries[at] = random.pick(entries),
        _ if at < entries.len() => entries[at] = random.below(target + 1) as u16,
        _ => {}
    }
}

/// Rooms that hold the texts: exactly, with some to spare, or with all there is.
fn fitting_rooms(random: &mut Random, needs: [usize; 3]) -> [usize; 3] {
    let spare = random.pick(&[0, 1, 5, MAX_EVENTS]);
    needs.map(|need| (need + spare).min(MAX_EVENTS))
}

fn line_starts(text: &[u8]) -> Vec<usize> {
    let ends = text.iter().enumerate().filter(|(_, &byte)| byte == b'\n');
    std::iter::once(0).chain(ends.map(|(at, _)| at + 1)).filter(|&at| at < text.len()).collect()
}

/// Damage to the bytes of a text.
pub fn damage(random: &mut Random, text: &mut Vec<u8>) {
    const ODD_BYTES: [u8; 14] = *b"\0\xff\t\n\r 0+-19aU/";
    let at = random.below(text.len().max(1));
    let starts = line_starts(text);
    let line = starts.get(random.below(starts.len().max(1))).copied().unwrap_or(0);
    match random.below(9) {
        0 if at < text.len() => {
            text.remove(at);
        }
        1 => text.insert(at, random.pick(&ODD_BYTES)),
        2 if at < text.len() => text[at] = random.pick(&ODD_BYTES),
        3 => {
            text.pop();
        }
        4 => text.truncate(at),
        // Before the end of a line: CR, a tab, a digit, a zero byte.
        5 if line > 0 => text.insert(line - 1, random.pick(b"\r\t0 \0")),
        // At its beginning: a blank line, a tab, a zero.
        6 => text.insert(line, random.pick(b"\n\t0 ")),
        7 => {
            let tabs: Vec<usize> = (0..text.len()).filter(|&at| text[at] == b'\t').collect();
            if !tabs.is_empty() {
                let tab = random.pick(&tabs);
                text.insert(tab + 1, random.pick(b"0+\t -9"));
            }
        }
        _ => {
            const BAD_LINES: [&[u8]; 6] = [b"init\t3\t0\n", b"store\t1\t18446744073709551616\n", b"add\t1\tsc\t0\t4294967296\n", b"lock\t256\n", b"keep\t801\n", b"keep\t0\n"];
            text.splice(line..line, random.pick(&BAD_LINES).to_vec());
        }
    }
}

/// Two lines exchanged, one said twice, or an `init` where none may stand.
pub fn disorder(random: &mut Random, text: &mut Vec<u8>) {
    let mut lines: Vec<Vec<u8>> = text.split_inclusive(|&byte| byte == b'\n').map(<[u8]>::to_vec).collect();
    let from = 1 + random.below(lines.len());
    let to = 1 + random.below(lines.len());
    match random.below(3) {
        0 if from < lines.len() && to < lines.len() => lines.swap(from, to),
        1 if from < lines.len() => lines.insert(from, lines[from].clone()),
        _ => {
            let (place, value) = (random.pick(&PLACES), random.pick(&VALUES));
            lines.insert(from.min(lines.len()), format!("init\t{place}\t{value}\n").into_bytes());
        }
    }
    *text = lines.concat();
}

/// Damage to a list: to its bytes, to the order of its lines, or lines up to about
/// the most that it may have.
fn damage_list(random: &mut Random, list: &mut Vec<u8>) {
    let mut lines: Vec<Vec<u8>> = list.split_inclusive(|&byte| byte == b'\n').map(<[u8]>::to_vec).collect();
    let [from, to] = [(); 2].map(|()| random.below(lines.len()));
    let grouped = list.starts_with(b"regs\t2\n");
    match random.below(5) {
        0 => return damage(random, list),
        1 => lines.swap(from, to),
        2 => lines.insert(from, lines[to].clone()),
        3 if grouped => lines.insert(from, random.pick(&[b"reg\t7\n".as_slice(), b"reg\t0\t7\n", b"reg\t3\t7\n", b"reg\t2\t256\n", b"reg\t1\t\n"]).to_vec()),
        3 => lines.insert(from, random.pick(&[b"reg\t256\n".as_slice(), b"reg\t07\n", b"reg\t7\t\n", b"regs\t1\n"]).to_vec()),
        _ if grouped => {
            let [ones, twos] = [(); 2].map(|()| random.pick(&[0, 3, MAX_REGISTERS, MAX_REGISTERS + 1]));
            lines.truncate(1);
            lines.extend((0..ones).map(|location| format!("reg\t1\t{}\n", 5 * location).into_bytes()));
            lines.extend((0..twos).map(|location| format!("reg\t2\t{}\n", 2 * location).into_bytes()));
        }
        _ => {
            let registers = MAX_REGISTERS - 1 + random.below(3);
            lines.truncate(1);
            lines.extend((0..registers).map(|location| format!("reg\t{}\n", 3 * location).into_bytes()));
        }
    }
    *list = lines.concat();
}

/// Some of the locations that traces use.
fn any_locations(random: &mut Random) -> Locations {
    let mut listed = NO_LOCATIONS;
    for place in PLACES {
        listed[usize::from(place)] = random.once_in(2);
    }
    listed
}

fn seldom_damaged(random: &mut Random, mut text: Vec<u8>, group: Word) -> ListFor {
    if random.once_in(6) {
        damage_list(random, &mut text);
    }
    ListFor { text, group }
}

/// A list that knows nothing of a trace, sometimes damaged.
pub fn any_list(random: &mut Random) -> ListFor {
    let listed = any_locations(random);
    seldom_damaged(random, texts::list_text(&listed), 1)
}

/// The same of form 2, for group 2.
pub fn any_group_list(random: &mut Random) -> ListFor {
    let [ones, twos] = [(); 2].map(|()| any_locations(random));
    seldom_damaged(random, texts::group_text([&ones, &twos]), 2)
}

/// Code lines of one to five digits, often the one that form 1 does not lose.
fn code(random: &mut Random) -> u32 {
    random.pick(&[0, 0, 0, 0, 1, 7, 9, 10, 99, 100, 999, 1_000, 9_999, 10_000, 65_534, 65_535])
}

/// A trace of form 1 turned to form 2, with code lines at will or all 0.
pub fn add_codes(random: &mut Random, text: &mut Vec<u8>) {
    let zeros = random.once_in(3);
    *text = texts::with_codes(text, || if zeros { 0 } else { code(random) });
}

/// The code line of one event changed to what is none, or left out.
pub fn damage_code(random: &mut Random, text: &mut Vec<u8>) {
    const NO_CODES: [&str; 12] =
        ["\t65536", "\t65537", "\t99999", "\t100000", "\t4294967296", "\t00", "\t07", "\t", "\t-1", "\t1\t", "\t1\r", ""];
    let starts = line_starts(text);
    let from = starts.get(random.below(starts.len().max(1))).copied().unwrap_or(0);
    let Some(length) = text[from..].iter().position(|&byte| byte == b'\n') else {
        return;
    };
    if let Some(tab) = text[from..from + length].iter().rposition(|&byte| byte == b'\t') {
        text.splice(from + tab..from + length, random.pick(&NO_CODES).bytes());
    }
}

/// One of the `init` lines lost or set to another value, or a zero line more.
pub fn damage_starts(random: &mut Random, text: &mut Vec<u8>) {
    let mut lines: Vec<Vec<u8>> = text.split_inclusive(|&byte| byte == b'\n').map(<[u8]>::to_vec).collect();
    let starts = lines.iter().skip(1).take_while(|line| texts::start(line).is_some()).count();
    let at = 1 + random.below(starts.max(1));
    let start = lines.get(at).and_then(|line| texts::start(line));
    match (random.below(4), start) {
        (0 | 1, Some(_)) => {
            lines.remove(at);
        }
        (2, Some(location)) => lines[at] = format!("init\t{location}\t{}\n", random.pick(&[0, 0, 1, 7])).into_bytes(),
        _ => texts::add_zero(&mut lines, random.pick(&PLACES)),
    }
    *text = lines.concat();
}

/// A triple of any sort, each of its traces in one of the forms.
pub fn mixed_case(random: &mut Random, lists: Lists) -> Case {
    let mut case = case(random, lists);
    for text in [&mut case.source, &mut case.target] {
        if random.once_in(2) {
            add_codes(random, text);
            match random.below(24) {
                0 | 1 => damage_code(random, text),
                2 => damage(random, text),
                3..=5 => damage_starts(random, text),
                _ => {}
            }
        }
    }
    case
}

/// The line of a failed exchange for that of an atomic load, or of an `rmw` that
/// document 01 has for one.
fn failed(line: &str) -> Option<String> {
    let fields: Vec<&str> = line.split('\t').collect();
    let fields = match fields[..] {
        ["aload", ref rest @ ..] => [&["cmpfail"], rest].concat(),
        ["rmw", place, order @ ("rlx" | "acq" | "sc"), old, new, ref code @ ..] if old == new => [&["cmpfail", place, order, old], code].concat(),
        _ => return None,
    };
    Some(fields.join("\t"))
}

/// Failed exchanges for such lines of both traces: for all of them, or by chance.
/// Whether there is one.
pub fn fail_exchanges(random: &mut Random, case: &mut Case) -> bool {
    let all = random.once_in(2);
    let mut any = false;
    for text in [&mut case.source, &mut case.target] {
        let Ok(lines) = std::str::from_utf8(text) else {
            continue;
        };
        let mut turn = |line: &str| {
            let turned = failed(line).filter(|_| all || random.once_in(2));
            any |= turned.is_some();
            turned.unwrap_or_else(|| line.to_string())
        };
        *text = lines.split('\n').map(&mut turn).collect::<Vec<_>>().join("\n").into_bytes();
    }
    any
}

/// Mostly short traces, and some in which event numbers have two digits.
fn size(random: &mut Random) -> usize {
    match random.below(8) {
        0 => random.below(3),
        1 => 10 + random.below(12),
        _ => 2 + random.below(7),
    }
}

/// A triple that every rule allows.
pub fn lawful_case(random: &mut Random, lists: Lists, events: usize) -> Case {
    let mut draft = Draft::new(random, lists, events);
    draft.change(random);
    let entries = draft.entries();
    Case {
        list: draft.list(),
        source: texts::trace_text(&draft.start, &draft.source),
        target: texts::trace_text(&draft.target_start(random), &draft.target),
        matching: texts::matching_text(&entries),
        rooms: fitting_rooms(random, [draft.source.len(), draft.target.len(), entries.len()]),
    }
}

/// A triple with a fault planted, which may turn out to be none.
pub fn faulty_case(random: &mut Random, lists: Lists) -> Case {
    let events = size(random);
    let mut draft = Draft::new(random, lists, events);
    draft.change(random);
    let fault = random.below(16);
    match fault {
        0..=5 => (0..1 + random.below(2)).for_each(|_| draft.change_unasked(random)),
        6..=8 => draft.change_event(random),
        _ => {}
    }
    let mut entries = draft.entries();
    if (9..=10).contains(&fault) {
        change_entries(random, &mut entries, draft.target.len());
    }
    let target_start = if fault == 11 { draft.other_start(random) } else { draft.target_start(random) };
    let needs = [draft.source.len(), draft.target.len(), entries.len()];
    let mut case = Case {
        list: draft.list(),
        source: texts::trace_text(&draft.start, &draft.source),
        target: texts::trace_text(&target_start, &draft.target),
        matching: texts::matching_text(&entries),
        rooms: fitting_rooms(random, needs),
    };
    let side = random.below(3);
    let text = [&mut case.source, &mut case.target, &mut case.matching].into_iter().nth(side).expect("three texts");
    match fault {
        12..=13 => damage(random, text),
        14 => disorder(random, text),
        15 => case.rooms[side] = random.below(needs[side].max(1)),
        _ => {}
    }
    if let Some(list) = &mut case.list {
        match random.below(8) {
            0 => damage_list(random, &mut list.text),
            1 => {
                draft.list_one(random);
                *list = draft.list().expect("a world with a list");
            }
            _ => {}
        }
    }
    case
}

/// Bytes for a text that needs so many: mostly that many, or about as many.
pub fn bytes_for(random: &mut Random, needed: usize) -> usize {
    match random.below(8) {
        0 => random.below(needed + 1),
        1 => needed - 1,
        2 => random.below(PLENTY + 1),
        3 => needed + random.below(40),
        _ => needed,
    }
}

/// What a call needs that is lent no bytes; anything for one that is refused.
pub fn bytes_needed(refused: Answer) -> usize {
    match refused {
        Answer { number: peer::number::ROOM_TOO_SHORT, place, .. } => place as usize,
        _ => 100,
    }
}

/// A move of a text, mostly to the form that it has not.
pub fn move_of(random: &mut Random, list: Option<&ListFor>, text: &[u8]) -> Move {
    let to = match (peer::form_of(text), random.once_in(8)) {
        (Form::One, false) | (Form::Two, true) => Form::Two,
        _ => Form::One,
    };
    let needed = bytes_needed(peer::move_to(list, to, text, &mut []));
    Move { list: list.cloned(), to, text: text.to_vec(), bytes: bytes_for(random, needed) }
}

/// A text to be shortened, with the bytes lent for the shortened one and for its matching.
pub struct Short {
    pub list: Option<ListFor>,
    pub text: Vec<u8>,
    pub bytes: [usize; 2],
}

/// A shortening of a text, mostly into enough bytes.
pub fn short_of(random: &mut Random, list: Option<&ListFor>, text: &[u8]) -> Short {
    let needed = bytes_needed(peer::shorten(list, text, &mut [], &mut []).answer);
    let named = bytes_needed(peer::shorten(list, text, &mut vec![0; needed], &mut []).answer);
    let bytes = [needed, named].map(|needed| bytes_for(random, needed));
    Short { list: list.cloned(), text: text.to_vec(), bytes }
}

/// A writing of a lawful trace in one of the forms, often with one word changed.
pub fn writing_of(random: &mut Random, list: Option<&ListFor>, text: &[u8], events: usize) -> Writing {
    let form = random.pick(&[Form::One, Form::Two]);
    let words = match random.below(12) {
        0 => random.below(events * EVENT_WORDS + EVENT_WORDS),
        _ => events * EVENT_WORDS,
    };
    let change = (words > 0 && random.once_in(2)).then(|| {
        let code = words.min(EVENT_WORDS * (1 + random.below(events.max(1)))) - 1;
        let at = if random.once_in(2) { code } else { random.below(words) };
        (at, random.pick(&[0, 1, 2, 7, 9, 255, 256, 65_535, 65_536, Word::from(u32::MAX), 1 << 32, Word::MAX]))
    });
    let mut writing = Writing { list: list.cloned(), form, text: text.to_vec(), words, change, bytes: 0 };
    let (memory, words) = writing.read();
    let needed = bytes_needed(peer::write_trace(list, form, &memory, &words, &mut []));
    writing.bytes = bytes_for(random, needed);
    writing
}

/// A triple of any sort, of traces of form 1.
pub fn case(random: &mut Random, lists: Lists) -> Case {
    if random.once_in(8) {
        let events = size(random);
        lawful_case(random, lists, events)
    } else {
        faulty_case(random, lists)
    }
}
