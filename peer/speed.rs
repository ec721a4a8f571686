//! Our library beside the ordinary Rust implementation: the same inputs, in one
//! run, turn by turn, each the best of several rounds, and the ratio of the two.
//! Then how a check grows with its events, what the beginning of a run takes beside
//! the check alone, and how much stack each takes. Prints Markdown.

#[allow(dead_code)]
mod cases;
#[allow(dead_code)]
mod forms;
#[allow(dead_code)]
mod generate;
#[allow(dead_code)]
mod groups;
#[allow(dead_code)]
mod lists;
#[allow(dead_code)]
mod ours;
#[allow(dead_code)]
mod peer;
#[allow(dead_code)]
mod random;
mod rules;
#[allow(dead_code)]
mod steps;
mod texts;

use cases::{Case, Known};
use generate::Lists;
use peer::{Entry, Form, Memory, Word, CELLS, EVENT_WORDS, MAX_CODED_TEXT, MAX_EVENTS, MAX_MATCHING};
use random::Random;
use std::arch::asm;
use std::hint::black_box;
use std::time::Instant;

const SIZES: [usize; 5] = [1, 10, 100, 400, 800];
/// So many different typical cases of each size, so that none is learnt by heart.
const CASES: u64 = 8;
const ROUNDS: usize = 120;
/// A side's part of a round at one size takes about so long.
const ROUND_NANOS: f64 = 800_000.0;

/// The rooms that every call is lent.
struct Rooms {
    source: Vec<Word>,
    target: Vec<Word>,
    entries: Vec<Entry>,
    bytes: Vec<u8>,
    matching: Vec<u8>,
    memories: [Memory; 2],
    tags: [usize; MAX_EVENTS],
}

impl Rooms {
    fn new() -> Rooms {
        let events = vec![0; MAX_EVENTS * EVENT_WORDS];
        let memories = [[0; CELLS]; 2];
        let [bytes, matching] = [MAX_CODED_TEXT, MAX_MATCHING].map(|bytes| vec![0; bytes]);
        Rooms { source: events.clone(), target: events, entries: vec![0; MAX_EVENTS], bytes, matching, memories, tags: [0; MAX_EVENTS] }
    }
}

/// A case with what the writer needs: the source read, and its form.
struct Input {
    case: Case,
    form: Form,
    memory: Memory,
    words: Vec<Word>,
}

impl Input {
    fn new(case: Case) -> Input {
        let mut words = vec![0; MAX_EVENTS * EVENT_WORDS];
        let read = peer::read_trace(None, &case.source, &mut words);
        assert_eq!(read.answer.number, 0);
        words.truncate(read.events * EVENT_WORDS);
        Input { form: peer::form_of(&case.source), case, memory: read.memory, words }
    }

    /// The form that its source has not.
    fn other(&self) -> Form {
        match self.form {
            Form::One => Form::Two,
            Form::Two => Form::One,
        }
    }
}

/// The cases known by hand, refused ones among them, for a check alone.
fn unread(known: Vec<Known>) -> Vec<Input> {
    known.into_iter().map(|known| Input { case: known.case, form: Form::One, memory: [0; CELLS], words: vec![] }).collect()
}

fn known() -> Vec<Input> {
    unread(cases::all())
}

/// Those with a list.
fn known_listed() -> Vec<Input> {
    unread([lists::checks(), groups::checks()].concat().into_iter().filter(|known| known.case.list.is_some()).collect())
}

fn typical(events: usize) -> Vec<Input> {
    let case = |seed| generate::lawful_case(&mut Random::new(seed), Lists::Without, events);
    (1..=CASES).map(|seed| Input::new(case(seed))).collect()
}

/// The same in form 2, with zero lines and code lines of 0.
fn typical_coded(events: usize) -> Vec<Input> {
    let coded = |case: Case| {
        let [source, target] = [&case.source, &case.target].map(|text| texts::with_codes(text, || 0));
        Input::new(Case { source, target, ..case })
    };
    typical(events).into_iter().map(|input| coded(input.case)).collect()
}

/// The longest lawful texts of so many events, all kept.
fn longest(events: usize) -> Vec<Input> {
    let text = forms::fullest(Form::One, events, "");
    let case = Case { list: None, source: text.clone(), target: text, matching: cases::keep_all(events), rooms: [MAX_EVENTS; 3] };
    vec![Input::new(case)]
}

/// 800 stores by rising location, in the target by falling location: the run
/// with the most steps.
fn falling() -> Vec<Input> {
    let location = |event: usize| event * CELLS / MAX_EVENTS;
    let mut order: Vec<usize> = (0..MAX_EVENTS).collect();
    let stores = |order: &[usize]| {
        let lines: String = order.iter().map(|&event| format!("store {} 1;", location(event))).collect();
        cases::trace(&lines)
    };
    let source = stores(&order);
    order.sort_by_key(|&event| CELLS - location(event));
    let number = |event: usize| order.iter().position(|&other| other == event).expect("an event") + 1;
    let keeps: String = (0..MAX_EVENTS).map(|event| format!("keep {};", number(event))).collect();
    vec![Input::new(Case { list: None, source, target: stores(&order), matching: cases::matching(&keeps), rooms: [MAX_EVENTS; 3] })]
}

type Call = fn(&Input, &mut Rooms) -> u32;

/// A thing that both can do; each call hands back the answer's number.
struct Work {
    name: &'static str,
    ours: Call,
    peer: Call,
}

const READ_TRACE: Work = Work {
    name: "reading a trace",
    ours: |input, rooms| {
        let result = ours::read_trace_to(None, black_box(&input.case.source), &mut rooms.source, &mut rooms.memories[0]);
        black_box(result)[0] as u32
    },
    peer: |input, rooms| black_box(peer::read_trace(None, black_box(&input.case.source), &mut rooms.source)).answer.number,
};

const READ_MATCHING: Work = Work {
    name: "reading a matching",
    ours: |input, rooms| black_box(ours::read_matching(black_box(&input.case.matching), &mut rooms.entries)).answer.number,
    peer: |input, rooms| black_box(peer::read_matching(black_box(&input.case.matching), &mut rooms.entries)).answer.number,
};

const WRITE: Work = Work {
    name: "writing a trace",
    ours: |input, rooms| black_box(ours::write_trace(None, input.form, &input.memory, black_box(&input.words), &mut rooms.bytes)).number,
    peer: |input, rooms| black_box(peer::write_trace(None, input.form, &input.memory, black_box(&input.words), &mut rooms.bytes)).number,
};

const MOVE: Work = Work {
    name: "moving a trace to the other form",
    ours: |input, rooms| black_box(ours::move_to(None, input.other(), black_box(&input.case.source), &mut rooms.bytes)).number,
    peer: |input, rooms| black_box(peer::move_to(None, input.other(), black_box(&input.case.source), &mut rooms.bytes)).number,
};

const SHORTEN: Work = Work {
    name: "shortening a trace",
    ours: |input, rooms| black_box(ours::shorten(None, black_box(&input.case.source), &mut rooms.bytes, &mut rooms.matching)).answer.number,
    peer: |input, rooms| black_box(peer::shorten(None, black_box(&input.case.source), &mut rooms.bytes, &mut rooms.matching)).answer.number,
};

const CHECK: Work = Work {
    name: "the whole check",
    ours: |input, rooms| {
        let lent: [&mut [Word]; 2] = [&mut rooms.source, &mut rooms.target];
        black_box(ours::check_to(input.case.list(), input.case.texts().map(black_box), lent, &mut rooms.entries, &mut rooms.memories))[0] as u32
    },
    peer: |input, rooms| {
        let [a, b, c] = input.case.texts().map(black_box);
        black_box(peer::check(input.case.list(), a, b, c, &mut rooms.source, &mut rooms.target, &mut rooms.entries)).answer.number
    },
};

/// A run begun, which is a check and a count of the steps, beside our check alone.
const START: Work = Work {
    name: "beginning a run",
    ours: |input, rooms| {
        let lent: [&mut [Word]; 2] = [&mut rooms.source, &mut rooms.target];
        black_box(ours::start_to(input.case.list(), input.case.texts().map(black_box), lent, &mut rooms.entries, &mut rooms.tags)).0[0] as u32
    },
    peer: CHECK.ours,
};

/// The time of one call over all inputs, in nanoseconds, as so many turns take it.
fn time(call: Call, inputs: &[Input], rooms: &mut Rooms, turns: usize) -> f64 {
    let begin = Instant::now();
    for _ in 0..turns {
        for input in inputs {
            assert_eq!(call(input, rooms), 0);
        }
    }
    begin.elapsed().as_nanos() as f64 / turns as f64
}

/// How many turns make a round.
fn turns(call: Call, inputs: &[Input], rooms: &mut Rooms) -> usize {
    let once = (0..3).map(|_| time(call, inputs, rooms, 1)).fold(f64::INFINITY, f64::min);
    (ROUND_NANOS / once) as usize + 1
}

/// The best times of both at every size. A round goes over all sizes and both
/// sides, so that what slows the machine for a while slows all of them.
fn best(work: &Work, sizes: &[Vec<Input>]) -> Vec<[f64; 2]> {
    let mut rooms = Rooms::new();
    let calls = [work.ours, work.peer];
    let turns: Vec<[usize; 2]> =
        sizes.iter().map(|inputs| calls.map(|call| turns(call, inputs, &mut rooms))).collect();
    let mut least = vec![[f64::INFINITY; 2]; sizes.len()];
    for round in 0..ROUNDS {
        for (size, inputs) in sizes.iter().enumerate() {
            for side in [round % 2, 1 - round % 2] {
                let taken = time(calls[side], inputs, &mut rooms, turns[size][side]);
                least[size][side] = least[size][side].min(taken);
            }
        }
    }
    least
}

/// A stack of its own for one call.
const STACK_BYTES: usize = 1 << 20;
const PAINT: u8 = 0xa5;

/// What is called on that stack.
struct Errand<'a> {
    call: Option<Call>,
    input: &'a Input,
    rooms: &'a mut Rooms,
}

extern "C" fn run_errand(errand: *mut Errand) {
    let errand = unsafe { &mut *errand };
    if let Some(call) = errand.call {
        black_box(call(errand.input, errand.rooms));
    }
}

/// How many bytes of a painted stack a call has written over.
fn painted(call: Option<Call>, input: &Input, rooms: &mut Rooms) -> usize {
    let mut stack = vec![PAINT; STACK_BYTES];
    let mut errand = Errand { call, input, rooms };
    unsafe {
        let top = stack.as_mut_ptr().add(STACK_BYTES);
        let top = top.sub(top as usize % 16);
        asm!(
            "mov r12, rsp",
            "mov rsp, {top}",
            "call {run}",
            "mov rsp, r12",
            top = in(reg) top,
            run = in(reg) run_errand as extern "C" fn(*mut Errand),
            in("rdi") &mut errand as *mut Errand,
            out("r12") _,
            clobber_abi("C"),
        );
    }
    STACK_BYTES - stack.iter().take_while(|&&byte| byte == PAINT).count()
}

/// The deepest stack of a call over inputs, without that of an empty errand.
fn stack(call: Call, inputs: &[Input]) -> usize {
    let mut rooms = Rooms::new();
    let empty = painted(None, &inputs[0], &mut rooms);
    inputs.iter().map(|input| painted(Some(call), input, &mut rooms) - empty).max().expect("an input")
}

fn row(name: &str, texts: &str, cells: &[f64]) {
    let cells: Vec<String> = cells.iter().map(|cell| format!("{cell:.2}")).collect();
    println!("| {name} | {texts} | {} |", cells.join(" | "));
}

fn main() {
    let inputs = [("typical", SIZES.map(typical)), ("typical, form 2", SIZES.map(typical_coded)), ("longest", SIZES.map(longest))];
    println!("| ours / Rust | texts | {} |", SIZES.map(|size| size.to_string()).join(" | "));
    println!("|---|---|{}", "---|".repeat(SIZES.len()));
    let mut growth = vec![];
    for work in [READ_TRACE, READ_MATCHING, WRITE, MOVE, SHORTEN, CHECK] {
        for (texts, inputs) in &inputs {
            let times = best(&work, inputs);
            row(work.name, texts, &times.iter().map(|[ours, peer]| ours / peer).collect::<Vec<_>>());
            growth.push((work.name, *texts, [0, 1].map(|side| times[4][side] / times[3][side])));
        }
    }
    println!("\n| 800 events over 400 | texts | ours | Rust |\n|---|---|---|---|");
    for (name, texts, cells) in growth {
        row(name, texts, &cells);
    }
    println!("\n| a run begun over a check, ours | texts | 800 |\n|---|---|---|");
    for (texts, inputs) in [("typical", typical(MAX_EVENTS)), ("longest", longest(MAX_EVENTS)), ("most steps", falling())] {
        let [[start, check]] = best(&START, &[inputs])[..] else { unreachable!("one size") };
        row(START.name, texts, &[start / check]);
    }
    println!("\n| stack in bytes, 800 events | texts | ours | Rust |\n|---|---|---|---|");
    for work in [READ_TRACE, READ_MATCHING, WRITE, MOVE, SHORTEN, CHECK] {
        for (texts, inputs) in &inputs {
            let [ours, peer] = [work.ours, work.peer].map(|call| stack(call, &inputs[4]));
            println!("| {} | {texts} | {ours} | {peer} |", work.name);
        }
    }
    for (texts, inputs) in [("known by hand, refused ones too", known()), ("known by hand, with a list", known_listed())] {
        let [ours, peer] = [CHECK.ours, CHECK.peer].map(|call| stack(call, &inputs));
        println!("| {} | {texts} | {ours} | {peer} |", CHECK.name);
    }
    for (texts, inputs) in [("most steps", falling()), ("known by hand, refused ones too", known()), ("known by hand, with a list", known_listed())] {
        println!("| {} | {texts} | {} | |", START.name, stack(START.ours, &inputs));
    }
}
