//! Writes the files of test vectors: `vectors FOLDER [seed]`.
//!
//! A vector is a header, raw bytes, and LF. The header is decimal numbers and a
//! name, parted by single blanks and ended by LF; the name may have blanks but
//! no LF. The vectors end where the file ends.
//!
//! `vectors`, `forms`, `counters`, `zeros` and `exchanges` hold checks, `forms` those
//! with a trace of form 2, `counters` those with values of more than 32 bits, `add64`
//! or the limits of texts, `zeros` those of form 2 about starting values, `exchanges`
//! those about exchanges that fail:
//!
//!   source length, target length, matching length (bytes),
//!   source room, target room, entry room (words: six an event, one an entry;
//!   at most 4,800, 4,800 and 800),
//!   answer number, side, place, length of the offending line (bytes),
//!   the name.
//!
//! The raw bytes are the source, the target, the matching and the offending
//! line, one directly after the other.
//!
//! `moves` holds moves between the forms:
//!
//!   the wanted form (1 or 2), length of the text, 0, 0, 0 (numbers that only a
//!   writing has), bytes lent (at most 57,300),
//!   answer number, side, place, length of the moved text (0 if refused),
//!   the name.
//!
//! The raw bytes are the text and the moved text.
//!
//! `writes` holds writings. The writer is handed the starting memory of a lawful
//! trace and the front of a room of 4,806 words, all 0 before the trace is read
//! into it, in which one word was changed after:
//!
//!   the form to write (1 or 2), length of the trace (bytes), words handed,
//!   where the changed word stands in the room (4,806 for none), the word, bytes
//!   lent (at most 57,300),
//!   answer number, side, place, length of the written text (0 if refused),
//!   the name.
//!
//! The raw bytes are the trace and the written text.
//!
//! `runs` holds whole runs, in rooms that hold the most:
//!
//!   source length, target length, matching length (bytes),
//!   source room, target room, entry room (words: 4,800, 4,800 and 800),
//!   answer number, side, place, length of the lines (0 if refused),
//!   the name.
//!
//! The raw bytes are the source, the target, the matching and the lines that
//! `laprunto_run` prints after the answer: how many steps there are, and the
//! steps. The replay of `steps.rs`, which knows the rules alone, accepts each
//! run.
//!
//! `shorts` holds shortenings:
//!
//!   length of the long text, of the shortened one and of the matching (bytes; the
//!   last two 0 if refused), bytes lent for the shortened text and for the matching
//!   (at most 57,300), 0,
//!   answer number, side, place, 0,
//!   the name.
//!
//! The raw bytes are the long text, the shortened one and the matching. The check
//! accepts each shortened text.
//!
//! `lists`, `list_moves`, `list_writes`, `list_runs` and `list_shorts` hold checks, moves, writings,
//! runs and shortenings with a list, as `vectors`, `moves`, `writes`, `runs` and `shorts` do, with one number
//! more before the name, the length of the list (bytes), and the list as the last of
//! the raw bytes. The trace of a writing is read without the list.
//!
//! `list_texts` holds lists read alone:
//!
//!   0, length of the list (bytes), 0, 0, 0, 0,
//!   answer number, side, place, length of the marks (256; 0 if refused),
//!   the name.
//!
//! The raw bytes are the list and, for each location from 0 on, `1` if it is listed
//! and `0` if not.
//!
//! The files with lists are for group 1. `groups`, `group_texts`, `group_moves`,
//! `group_writes`, `group_runs` and `group_shorts` are the same for group 2, with lists
//! that both groups share.
//!
//! The cases known by hand come first, then random ones until every answer has
//! its share. Each answer to a check or a move of texts that document 01 reads
//! alike is given by the fast checker and the slow one, or the program stops.

mod cases;
mod counters;
mod exchanges;
mod forms;
mod generate;
mod groups;
mod lists;
#[allow(dead_code)]
mod naive;
#[allow(dead_code)]
mod peer;
#[allow(dead_code)]
mod random;
mod rules;
#[allow(dead_code)]
mod slow;
mod steps;
mod texts;
mod zeros;

use cases::{Case, Known, Triple, ALL, DONE};
use forms::{KnownMove, KnownWriting, Move, Writing};
use generate::{Lists, Short};
use lists::KnownList;
use peer::{form_of, Answer, Form, ListFor, Word};
use random::Random;
use std::collections::{BTreeMap, BTreeSet};
use std::path::Path;

/// The program that runs a file has room for no more.
const MAX_BYTES: usize = 2_400_000;
/// Long cases known by hand that are left to the tests: a shorter one, or one
/// as long, is like them.
const LEFT_OUT: [&str; 21] = [
    "target of 0xff, over",
    "800 entries for 799",
    "800 backwards",
    "first of 800 gone",
    "run: 800 events, source of form 2",
    "run: 800 events, target of form 2",
    "run: 801 events, 3, source, target of form 2",
    "run: 801 events, 3, source, both of form 2",
    "run: 801 events, 3, target, source of form 2",
    "run: 801 events, 3, target, both of form 2",
    "801st event of form 2 bad, target",
    "801 events of form 2, source",
    "801 events of form 2, target",
    "target of form 2 over its limit",
    "over form 1's limit, not quite form 2, trace\\t1\\n",
    "over form 1's limit, not quite form 2, Trace\\t2\\n",
    "over form 1's limit, not quite form 2, \\ntrace\\t2\\n",
    "already, over its limit, to One",
    "already, at its limit, to Two",
    "over form 1's limit, not quite form 2, to One",
    "longest text of form 2, to One",
];
/// Give up on a share that has not been filled by then.
const MAX_TRIES: usize = 5_000_000;
/// Lawful triples, and some that are longer than the rest.
const LAWFUL: usize = 400;
const LONG_LAWFUL: [usize; 4] = [50, 100, 200, 800];

/// How many random vectors each answer gets, by its number and side. 1 and 3
/// need long texts and come from the cases known by hand.
type Shares = [((u32, u32), usize)];

const CHECK_SHARES: [((u32, u32), usize); 23] = [
    ((2, 1), 100),
    ((2, 2), 100),
    ((2, 3), 100),
    ((4, 1), 60),
    ((4, 2), 60),
    ((5, 1), 90),
    ((5, 2), 90),
    ((6, 1), 120),
    ((6, 2), 120),
    ((7, 2), 120),
    ((8, 3), 120),
    ((9, 3), 150),
    ((10, 1), 200),
    ((11, 1), 150),
    ((12, 1), 240),
    ((13, 1), 200),
    ((14, 1), 280),
    ((15, 2), 150),
    ((16, 2), 200),
    ((17, 1), 60),
    ((17, 2), 60),
    ((17, 3), 60),
    // Faults that turn out to be none.
    ((0, 0), 100),
];

/// A form 2 check has a fraction of each share of a check.
const FORM_SHARE: usize = 8;

/// What the starting values of form 2 bring, and what comes before and behind.
const ZERO_SHARES: [((u32, u32), usize); 12] = [
    ((20, 1), 60),
    ((20, 2), 60),
    ((21, 1), 40),
    ((21, 2), 40),
    ((2, 1), 10),
    ((4, 1), 10),
    ((4, 2), 10),
    ((5, 1), 10),
    ((6, 1), 20),
    ((6, 2), 20),
    ((7, 2), 40),
    ((0, 0), 60),
];

const MOVE_SHARES: [((u32, u32), usize); 9] = [
    ((0, 0), 80),
    ((2, 1), 60),
    ((4, 1), 20),
    ((5, 1), 20),
    ((6, 1), 40),
    ((17, 0), 40),
    ((19, 1), 60),
    ((20, 1), 30),
    ((21, 1), 20),
];

const WRITING_SHARES: [((u32, u32), usize); 6] =
    [((0, 0), 80), ((5, 0), 10), ((6, 0), 20), ((17, 0), 40), ((18, 0), 60), ((19, 0), 60)];

/// Runs that are accepted, most with steps of every kind, and a few that are not.
const RUN_SHARES: [((u32, u32), usize); 9] = [
    ((0, 0), 300),
    ((2, 1), 4),
    ((6, 2), 4),
    ((9, 3), 4),
    ((11, 1), 4),
    ((12, 1), 4),
    ((13, 1), 4),
    ((14, 1), 4),
    ((16, 2), 4),
];

/// What a list brings to a check, and what comes before and behind.
const LIST_SHARES: [((u32, u32), usize); 24] = [
    ((2, 4), 20),
    ((22, 4), 20),
    ((2, 1), 5),
    ((2, 2), 5),
    ((2, 3), 5),
    ((4, 1), 5),
    ((5, 1), 20),
    ((5, 2), 10),
    ((6, 1), 10),
    ((6, 2), 10),
    ((7, 2), 20),
    ((8, 3), 5),
    ((9, 3), 5),
    ((10, 1), 20),
    ((11, 1), 60),
    ((12, 1), 60),
    ((13, 1), 20),
    ((14, 1), 30),
    ((15, 2), 40),
    ((16, 2), 40),
    ((17, 1), 5),
    ((20, 1), 10),
    ((21, 2), 5),
    ((0, 0), 80),
];

const LIST_TEXT_SHARES: [((u32, u32), usize); 3] = [((0, 0), 20), ((2, 4), 20), ((22, 4), 20)];

const LIST_MOVE_SHARES: [((u32, u32), usize); 8] =
    [((0, 0), 40), ((2, 4), 5), ((22, 4), 5), ((5, 1), 10), ((6, 1), 10), ((17, 0), 5), ((19, 1), 5), ((20, 1), 5)];

const LIST_WRITING_SHARES: [((u32, u32), usize); 7] =
    [((0, 0), 40), ((2, 4), 5), ((22, 4), 5), ((5, 0), 10), ((6, 0), 10), ((17, 0), 5), ((18, 0), 5)];

const LIST_RUN_SHARES: [((u32, u32), usize); 5] = [((0, 0), 60), ((2, 4), 2), ((22, 4), 2), ((11, 1), 4), ((16, 2), 4)];

const SHORT_SHARES: [((u32, u32), usize); 9] = [
    ((0, 0), 120),
    ((2, 1), 40),
    ((4, 1), 10),
    ((5, 1), 10),
    ((6, 1), 20),
    ((17, 2), 20),
    ((17, 3), 20),
    ((20, 1), 10),
    ((21, 1), 10),
];

const LIST_SHORT_SHARES: [((u32, u32), usize); 9] =
    [((0, 0), 80), ((2, 4), 5), ((22, 4), 10), ((5, 1), 10), ((6, 1), 10), ((17, 2), 10), ((17, 3), 10), ((20, 1), 5), ((21, 1), 2)];

/// A lawful triple of a run has up to so many events.
const RUN_EVENTS: usize = 40;

/// So many stores, all in the other order, are swapped each with each.
const BACKWARDS: usize = 100;

/// The three texts of an example.
macro_rules! example {
    ($name:literal) => {
        [
            include_bytes!(concat!("../examples/", $name, "/source")),
            include_bytes!(concat!("../examples/", $name, "/target")),
            include_bytes!(concat!("../examples/", $name, "/matching")).as_slice(),
        ]
    };
}

/// The words of the rooms of a case: six for each event, one for each entry;
/// in every third vector some words to spare, too few for one more event.
fn room_words(case: &Case, vector: usize) -> [usize; 3] {
    let spare = if vector % 3 == 0 { vector / 3 % peer::EVENT_WORDS } else { 0 };
    let words = |events: usize| (events * peer::EVENT_WORDS + spare).min(peer::MAX_EVENTS * peer::EVENT_WORDS);
    [words(case.rooms[0]), words(case.rooms[1]), case.rooms[2]]
}

fn triple(answer: Answer) -> Triple {
    (answer.number, answer.side, answer.place)
}

/// What a form is called in a header.
fn form_number(form: Form) -> usize {
    match form {
        Form::One => 1,
        Form::Two => 2,
    }
}

/// What a vector says: the numbers of its header up to the answer, the raw bytes
/// that are handed over, the answer, and the raw bytes that come back; then the list
/// of a call that has one.
struct Vector<'a> {
    numbers: Vec<usize>,
    handed: Vec<&'a [u8]>,
    answer: Triple,
    given: Vec<u8>,
    list: Option<&'a ListFor>,
}

#[derive(Default)]
struct File {
    bytes: Vec<u8>,
    counts: BTreeMap<(u32, u32), usize>,
    vectors: usize,
}

impl File {
    fn add(&mut self, name: &str, vector: &Vector) {
        assert!(!name.contains('\n'), "{name:?}: a name is one line");
        self.vectors += 1;
        let (number, side, place) = vector.answer;
        let answer = [number, side, place].map(|number| number as usize);
        let list = vector.list.map(|list| list.text.as_slice());
        let list_length = list.map(<[u8]>::len);
        for number in vector.numbers.iter().chain(&answer).chain(&[vector.given.len()]).chain(&list_length) {
            self.bytes.extend_from_slice(format!("{number} ").as_bytes());
        }
        self.bytes.extend_from_slice(format!("{name}\n").as_bytes());
        for part in vector.handed.iter().chain(&[vector.given.as_slice(), list.unwrap_or_default(), b"\n"]) {
            self.bytes.extend_from_slice(part);
        }
        *self.counts.entry((number, side)).or_default() += 1;
    }

    /// A vector known by hand, unless it is left out.
    fn add_known(&mut self, name: &str, vector: &Vector, by_hand: Triple) {
        assert_eq!(vector.answer, by_hand, "{name}: the answer by hand differs");
        if !LEFT_OUT.contains(&name) {
            self.add(name, vector);
        }
    }

    /// Random vectors, each with a random thing that `draw` makes, until every share is filled.
    fn add_random<T>(&mut self, shares: &Shares, mut draw: impl FnMut() -> T, vector: impl Fn(&T, usize) -> Vector<'_>) {
        let mut open: BTreeMap<(u32, u32), usize> = shares.iter().copied().collect();
        let mut added = 0;
        for _ in 0..MAX_TRIES {
            let drawn = draw();
            let vector = vector(&drawn, self.vectors + 1);
            let (number, side, _) = vector.answer;
            if let Some(left) = open.get_mut(&(number, side)) {
                added += 1;
                self.add(&format!("random {added}"), &vector);
                *left -= 1;
                if *left == 0 {
                    open.remove(&(number, side));
                }
            }
            if open.is_empty() {
                return;
            }
        }
        panic!("shares left open: {open:?}");
    }

    fn write(&self, folder: &Path, name: &str) {
        println!("{name}: {} vectors, {} bytes", self.vectors, self.bytes.len());
        for ((number, side), count) in &self.counts {
            println!("answer {number:2} side {side}: {count}");
        }
        assert!(self.bytes.len() <= MAX_BYTES, "the file has grown too long");
        std::fs::write(folder.join(name), &self.bytes).expect("the file can be written");
    }
}

/// A check, as the vector of a number has it; both checkers must agree on its
/// answer and its line.
fn check_vector(case: &Case, vector: usize) -> Vector<'_> {
    let words = room_words(case, vector);
    let [mut source, mut target] = [words[0], words[1]].map(|words| vec![0; words]);
    let mut entries = vec![0; words[2]];
    let answer = peer::check(case.list(), &case.source, &case.target, &case.matching, &mut source, &mut target, &mut entries).answer;
    let given = peer::offending_line(&case.source, &case.target, answer).to_vec();
    let answer = triple(answer);
    if let Some(outcome) = slow::check(case.list(), case.texts(), case.rooms) {
        assert_eq!((answer, &given), (outcome.answer, &outcome.line), "the checkers differ");
    }
    let lengths = case.texts().map(<[u8]>::len);
    Vector { numbers: [lengths, words].concat(), handed: case.texts().to_vec(), answer, given, list: case.list() }
}

/// The text at the front of bytes that a call was lent, if it was done.
fn front(out: &[u8], answer: Answer) -> Vec<u8> {
    let bytes = if answer.number == peer::number::DONE { answer.place as usize } else { 0 };
    out[..bytes].to_vec()
}

/// A move, on which both checkers must agree.
fn move_vector(Move { list, to, text, bytes }: &Move, _: usize) -> Vector<'_> {
    let list = list.as_ref();
    let mut out = vec![0; *bytes];
    let answer = peer::move_to(list, *to, text, &mut out);
    let given = front(&out, answer);
    let answer = triple(answer);
    if let Some(moved) = slow::moved(list, *to == Form::Two, text, *bytes) {
        assert_eq!((answer, given.clone()), moved, "the moves differ");
    }
    Vector { numbers: vec![form_number(*to), text.len(), 0, 0, 0, *bytes], handed: vec![text], answer, given, list }
}

/// The texts of a shortening, which the check must accept.
struct Made {
    short: Short,
    texts: [Vec<u8>; 2],
    answer: Triple,
}

fn made(short: Short) -> Made {
    let [mut out, mut names] = short.bytes.map(|bytes| vec![0; bytes]);
    let list = short.list.as_ref();
    let told = peer::shorten(list, &short.text, &mut out, &mut names);
    out.truncate(told.bytes);
    names.truncate(told.matching_bytes);
    if told.answer.number == peer::number::DONE {
        let [mut source_room, mut target_room] = [(); 2].map(|()| vec![0; peer::MAX_EVENTS * peer::EVENT_WORDS]);
        let checked = peer::check(list, &short.text, &out, &names, &mut source_room, &mut target_room, &mut vec![0; peer::MAX_EVENTS]);
        assert_eq!(triple(checked.answer), DONE, "a shortened text is not accepted");
    }
    Made { answer: triple(told.answer), texts: [out, names], short }
}

fn short_vector(Made { short, texts: [out, names], answer }: &Made, _: usize) -> Vector<'_> {
    let [bytes, named] = short.bytes;
    Vector {
        numbers: vec![short.text.len(), out.len(), names.len(), bytes, named, 0],
        handed: vec![&short.text, out, names],
        answer: *answer,
        given: vec![],
        list: short.list.as_ref(),
    }
}

fn writing_vector(writing: &Writing, _: usize) -> Vector<'_> {
    let (memory, words) = writing.read();
    let mut out = vec![0; writing.bytes];
    let list = writing.list.as_ref();
    let answer = peer::write_trace(list, writing.form, &memory, &words, &mut out);
    let given = front(&out, answer);
    let (at, word) = writing.change.unwrap_or((forms::WRITING_WORDS, 0));
    Vector {
        numbers: vec![form_number(writing.form), writing.text.len(), writing.words, at, word as usize, writing.bytes],
        handed: vec![&writing.text],
        answer: triple(answer),
        given,
        list,
    }
}

/// A run, which the rules must allow.
fn run_vector(case: &Case, _: usize) -> Vector<'_> {
    let run = steps::run(case.list(), case.texts()).expect("no gone event is stuck");
    if run.answer.number == peer::number::DONE {
        steps::replay(&steps::listed(case.list()), &run.source, &run.target, &run.steps).expect("the rules allow the run");
    }
    let lengths = case.texts().map(<[u8]>::len);
    let rooms = [peer::MAX_EVENTS * peer::EVENT_WORDS, peer::MAX_EVENTS * peer::EVENT_WORDS, peer::MAX_EVENTS];
    Vector {
        numbers: [lengths, rooms].concat(),
        handed: case.texts().to_vec(),
        answer: triple(run.answer),
        given: steps::lines(&run).into_bytes(),
        list: case.list(),
    }
}

fn add_known_checks(file: &mut File, known: &[Known]) {
    for Known { name, case, answer } in known {
        let vector = check_vector(case, file.vectors + 1);
        file.add_known(name, &vector, *answer);
    }
}

/// Checks of traces of form 1.
fn checks(random: &mut Random) -> File {
    let mut file = File::default();
    add_known_checks(&mut file, &cases::all());
    let mut lawful = |random: &mut Random, events: usize, name: &str| {
        let case = generate::lawful_case(random, Lists::Without, events);
        let vector = check_vector(&case, file.vectors + 1);
        assert_eq!(vector.answer, (0, 0, 0), "what the rules allow is refused");
        file.add(name, &vector);
    };
    for events in LONG_LAWFUL {
        lawful(random, events, &format!("lawful change of {events} events"));
    }
    for index in 0..LAWFUL {
        lawful(random, index % 15, &format!("lawful {}", index + 1));
    }
    file.add_random(&CHECK_SHARES, || generate::faulty_case(random, Lists::Without), check_vector);
    file
}

/// Checks with a trace of form 2.
fn form_checks(random: &mut Random) -> File {
    let mut file = File::default();
    add_known_checks(&mut file, &forms::checks());
    let is_coded = |case: &Case| [&case.source, &case.target].into_iter().any(|text| form_of(text) == Form::Two);
    let draw = || loop {
        let case = generate::mixed_case(random, Lists::Without);
        if is_coded(&case) {
            return case;
        }
    };
    file.add_random(&CHECK_SHARES.map(|(answer, share)| (answer, share / FORM_SHARE)), draw, check_vector);
    file
}

/// Checks with what document 01 does not read, in either form.
fn counter_checks(random: &mut Random) -> File {
    let mut file = File::default();
    add_known_checks(&mut file, &counters::checks());
    let draw = || loop {
        let case = generate::mixed_case(random, Lists::Without);
        if slow::check(None, case.texts(), case.rooms).is_none() {
            return case;
        }
    };
    file.add_random(&CHECK_SHARES.map(|(answer, share)| (answer, share / FORM_SHARE)), draw, check_vector);
    file
}

/// Checks with a trace of form 2 whose `init` lines were changed.
fn zero_checks(random: &mut Random) -> File {
    let mut file = File::default();
    add_known_checks(&mut file, &zeros::checks());
    let draw = || {
        let events = 1 + random.below(12);
        let mut case = generate::lawful_case(random, Lists::Without, events);
        generate::add_codes(random, &mut case.source);
        generate::add_codes(random, &mut case.target);
        let text = if random.once_in(2) { &mut case.source } else { &mut case.target };
        generate::damage_starts(random, text);
        match random.below(4) {
            0 => generate::damage(random, text),
            1 => generate::disorder(random, text),
            _ => {}
        }
        case
    };
    file.add_random(&ZERO_SHARES, draw, check_vector);
    file
}

/// Checks with a failed exchange, in either form.
fn exchange_checks(random: &mut Random) -> File {
    let mut file = File::default();
    add_known_checks(&mut file, &exchanges::checks());
    let draw = || loop {
        let mut case = generate::mixed_case(random, Lists::Without);
        if generate::fail_exchanges(random, &mut case) {
            return case;
        }
    };
    file.add_random(&CHECK_SHARES.map(|(answer, share)| (answer, share / FORM_SHARE)), draw, check_vector);
    file
}

fn add_known_moves(file: &mut File, known: &[KnownMove]) {
    for KnownMove { name, handed, answer, moved } in known {
        let vector = move_vector(handed, 0);
        assert_eq!(vector.given, *moved, "{name}: the text by hand differs");
        file.add_known(name, &vector, *answer);
    }
}

fn add_known_writings(file: &mut File, known: &[KnownWriting]) {
    for KnownWriting { name, handed, answer } in known {
        file.add_known(name, &writing_vector(handed, 0), *answer);
    }
}

fn moves(random: &mut Random) -> File {
    let mut file = File::default();
    add_known_moves(&mut file, &[forms::moves(), counters::moves(), zeros::moves(), exchanges::moves()].concat());
    let draw = || {
        let text = generate::mixed_case(random, Lists::Without).source;
        generate::move_of(random, None, &text)
    };
    file.add_random(&MOVE_SHARES, draw, move_vector);
    file
}

fn writings(random: &mut Random) -> File {
    let mut file = File::default();
    add_known_writings(&mut file, &[forms::writings(), counters::writings(), zeros::writings(), exchanges::writings()].concat());
    file.add_random(&WRITING_SHARES, || random_writing(random, Lists::Without), writing_vector);
    file
}

/// A writing of a trace that is lawful without a list.
fn random_writing(random: &mut Random, lists: Lists) -> Writing {
    loop {
        let text = generate::mixed_case(random, Lists::Without).source;
        let read = peer::read_trace(None, &text, &mut [0; peer::MAX_EVENTS * peer::EVENT_WORDS]);
        if read.answer.number == peer::number::DONE {
            let list = match lists {
                Lists::Without => None,
                _ => Some(any_list(random, lists)),
            };
            return generate::writing_of(random, list.as_ref(), &text, read.events);
        }
    }
}

/// The group that lists are for.
fn group_of(lists: Lists) -> Option<Word> {
    match lists {
        Lists::Without => None,
        Lists::With => Some(1),
        Lists::Grouped(group) => Some(group),
    }
}

/// Those whose list is for the group.
fn for_group<T>(lists: Lists, known: Vec<T>, list: fn(&T) -> &Option<ListFor>) -> Vec<T> {
    known.into_iter().filter(|known| list(known).as_ref().map(|list| list.group) == group_of(lists)).collect()
}

fn list_of(known: &Known) -> &Option<ListFor> {
    &known.case.list
}

/// Checks with a list; each of its traces in one of the forms.
fn checks_with(random: &mut Random, lists: Lists) -> File {
    let mut file = File::default();
    let known = [lists::examples(), lists::checks(), groups::examples(), groups::checks()].concat();
    add_known_checks(&mut file, &for_group(lists, known, list_of));
    file.add_random(&LIST_SHARES, || generate::mixed_case(random, lists), check_vector);
    file
}

fn any_list(random: &mut Random, lists: Lists) -> ListFor {
    match lists {
        Lists::Grouped(_) => generate::any_group_list(random),
        _ => generate::any_list(random),
    }
}

fn list_text_vector(list: &ListFor, _: usize) -> Vector<'_> {
    let read = peer::read_list(list);
    let given = match read.answer.number {
        peer::number::DONE => read.listed.map(|listed| if listed { b'1' } else { b'0' }).to_vec(),
        _ => vec![],
    };
    Vector { numbers: vec![0, list.text.len(), 0, 0, 0, 0], handed: vec![&list.text], answer: triple(read.answer), given, list: None }
}

fn texts_with(random: &mut Random, lists: Lists) -> File {
    let mut file = File::default();
    let known = [lists::texts(), groups::texts()].concat();
    for KnownList { name, list, answer, listed } in known.iter().filter(|known| Some(known.list.group) == group_of(lists)) {
        assert_eq!(peer::read_list(list).listed, *listed, "{name}: the marks by hand differ");
        file.add_known(name, &list_text_vector(list, 0), *answer);
    }
    file.add_random(&LIST_TEXT_SHARES, || any_list(random, lists), list_text_vector);
    file
}

fn moves_with(random: &mut Random, lists: Lists) -> File {
    let mut file = File::default();
    let known = [lists::moves(), groups::moves()].concat();
    add_known_moves(&mut file, &for_group(lists, known, |known| &known.handed.list));
    let draw = || {
        let case = generate::mixed_case(random, lists);
        generate::move_of(random, case.list(), &case.source)
    };
    file.add_random(&LIST_MOVE_SHARES, draw, move_vector);
    file
}

fn writings_with(random: &mut Random, lists: Lists) -> File {
    let mut file = File::default();
    let known = [lists::writings(), groups::writings()].concat();
    add_known_writings(&mut file, &for_group(lists, known, |known| &known.handed.list));
    file.add_random(&LIST_WRITING_SHARES, || random_writing(random, lists), writing_vector);
    file
}

/// Runs with a list: the examples, those known by hand that have a step, and random ones.
fn runs_with(random: &mut Random, lists: Lists) -> File {
    let mut file = File::default();
    let examples = [lists::examples(), groups::examples()].concat();
    let checks = [lists::checks(), groups::checks()].concat().into_iter().filter(has_step);
    for Known { name, case, answer } in for_group(lists, examples.into_iter().chain(checks).collect(), list_of) {
        file.add_known(&name, &run_vector(&case, 0), answer);
    }
    let draw = || if random.once_in(2) { changed_case(random, lists) } else { generate::mixed_case(random, lists) };
    file.add_random(&LIST_RUN_SHARES, draw, run_vector);
    file
}

/// A long text whose accesses are mostly repeated, in one of the forms.
fn long_text(random: &mut Random, list: Option<&ListFor>) -> Vec<u8> {
    let listed = list.map_or(peer::NO_LOCATIONS, |list| peer::read_list(list).listed);
    let mut memory = [0; peer::CELLS];
    let places = 1 + random.below(4);
    for place in 0..places {
        memory[place] = random.below(3) as u64;
    }
    let mut text = texts::trace_head(&memory);
    for _ in 0..random.below(40) {
        let place = random.below(places);
        let value = random.below(3) as u64;
        text += &match random.below(9) {
            0 => format!("{}\t{place}\n", random.pick(&["lock", "unlock"])),
            1 => String::from("fence\tar\n"),
            2..=4 => {
                memory[place] = value;
                format!("store\t{place}\t{value}\n")
            }
            _ => {
                let value = if listed[place] { value } else { memory[place] };
                format!("load\t{place}\t{value}\t{}\n", random.pick(&["used", "unused"]))
            }
        };
    }
    let mut text = text.into_bytes();
    if random.once_in(2) {
        generate::add_codes(random, &mut text);
    }
    text
}

/// The sources of known checks that get shorter, each once.
fn add_changed(file: &mut File, known: Vec<Known>) {
    let mut seen = BTreeSet::new();
    for Known { name, case, .. } in known {
        let made = made(Short { list: case.list, text: case.source, bytes: [peer::MAX_CODED_TEXT; 2] });
        if made.answer == DONE && made.texts[0] != made.short.text && seen.insert((made.short.list.clone(), made.short.text.clone())) {
            file.add_known(&name, &short_vector(&made, 0), made.answer);
        }
    }
}

fn shorts(random: &mut Random) -> File {
    let mut file = File::default();
    let [source, target, matching]: [&[u8]; 3] = example!("shelf");
    let shelf = made(Short { list: None, text: source.to_vec(), bytes: [peer::MAX_CODED_TEXT; 2] });
    assert_eq!(shelf.texts, [target.to_vec(), matching.to_vec()], "the example by hand differs");
    let examples = examples().into_iter().chain([backwards()]);
    let others = [cases::all(), forms::checks(), counters::checks(), zeros::checks(), exchanges::checks()].concat();
    let known: Vec<Known> = examples.chain(others.into_iter().filter(|known| known.case.source.len() < 400)).collect();
    add_changed(&mut file, known);
    let events = |count: usize| [b"trace\t1\n".to_vec(), b"lock\t0\n".repeat(count)].concat();
    let long = [("800 events", events(800), DONE), ("801 events", events(801), (3, 1, 802)), ("a byte over", vec![b'x'; 52_501], (1, 1, 0))];
    for (name, text, answer) in long {
        let made = made(Short { list: None, text, bytes: [peer::MAX_CODED_TEXT; 2] });
        file.add_known(name, &short_vector(&made, 0), answer);
    }
    let draw = || {
        let text = if random.once_in(2) { long_text(random, None) } else { generate::mixed_case(random, Lists::Without).source };
        made(generate::short_of(random, None, &text))
    };
    file.add_random(&SHORT_SHARES, draw, short_vector);
    file
}

fn shorts_with(random: &mut Random, lists: Lists) -> File {
    let mut file = File::default();
    let known = for_group(lists, [lists::examples(), lists::checks(), groups::examples(), groups::checks()].concat(), list_of);
    add_changed(&mut file, known.into_iter().filter(|known| known.case.source.len() < 400).collect());
    let draw = || {
        let case = generate::mixed_case(random, lists);
        let text = if random.once_in(2) { long_text(random, case.list()) } else { case.source.clone() };
        made(generate::short_of(random, case.list(), &text))
    };
    file.add_random(&LIST_SHORT_SHARES, draw, short_vector);
    file
}

fn all_room([source, target, matching]: [&[u8]; 3]) -> Case {
    Case { list: None, source: source.to_vec(), target: target.to_vec(), matching: matching.to_vec(), rooms: [ALL; 3] }
}

fn examples() -> Vec<Known> {
    let known = |name: &str, texts, answer| Known { name: format!("example {name}"), case: all_room(texts), answer };
    vec![
        known("lock", example!("lock"), (12, 1, 2)),
        known("task", example!("task"), DONE),
        known("code", example!("code"), (14, 1, 7)),
        known("count", example!("count"), DONE),
        known("start", example!("start"), (20, 2, 1)),
        known("claim", example!("claim"), (11, 1, 4)),
        known("shelf", example!("shelf"), DONE),
    ]
}

fn backwards() -> Known {
    let stores = |locations: &mut dyn Iterator<Item = usize>| {
        let lines: String = locations.map(|location| format!("store {location} 1;")).collect();
        cases::trace(&lines)
    };
    let keeps: String = (1..=BACKWARDS).rev().map(|number| format!("keep {number};")).collect();
    let texts = [stores(&mut (0..BACKWARDS)), stores(&mut (0..BACKWARDS).rev()), cases::matching(&keeps)];
    Known { name: format!("{BACKWARDS} stores backwards"), case: all_room([&texts[0], &texts[1], &texts[2]]), answer: DONE }
}

/// A lawful triple with a removal, a swap and an insertion, each of its traces in one of the forms.
fn changed_case(random: &mut Random, lists: Lists) -> Case {
    loop {
        let events = 3 + random.below(RUN_EVENTS - 2);
        let mut case = generate::lawful_case(random, lists, events);
        for text in [&mut case.source, &mut case.target] {
            if random.once_in(2) {
                generate::add_codes(random, text);
            }
        }
        let lines = String::from_utf8(run_vector(&case, 0).given).expect("lines are ASCII");
        if ["remove", "swap", "insert"].iter().all(|word| lines.contains(word)) {
            return case;
        }
    }
}

fn has_step(known: &Known) -> bool {
    steps::run(known.case.list(), known.case.texts()).expect("no gone event is stuck").cost != 0
}

/// Whole runs: those of the requirement and the examples, every other one known
/// by hand that has a step, and random ones.
fn runs(random: &mut Random) -> File {
    let mut file = File::default();
    let requirement = cases::runs();
    let others = [cases::all().split_off(requirement.len()), forms::checks(), counters::checks(), zeros::checks(), exchanges::checks()].concat();
    let first = requirement.into_iter().chain(examples()).chain([backwards()]);
    for Known { name, case, answer } in first.chain(others.into_iter().filter(has_step)) {
        file.add_known(&name, &run_vector(&case, 0), answer);
    }
    let draw = || if random.once_in(2) { changed_case(random, Lists::Without) } else { generate::mixed_case(random, Lists::Without) };
    file.add_random(&RUN_SHARES, draw, run_vector);
    file
}

fn main() {
    let mut arguments = std::env::args().skip(1);
    let folder = arguments.next().expect("the folder to write the files in");
    let folder = Path::new(&folder);
    let seed = arguments.next().map_or(1, |seed| seed.parse().expect("the seed is a number"));
    let files: [(&str, fn(&mut Random) -> File); 21] = [
        ("vectors", checks),
        ("forms", form_checks),
        ("counters", counter_checks),
        ("zeros", zero_checks),
        ("exchanges", exchange_checks),
        ("moves", moves),
        ("writes", writings),
        ("runs", runs),
        ("lists", |random| checks_with(random, Lists::With)),
        ("list_texts", |random| texts_with(random, Lists::With)),
        ("list_moves", |random| moves_with(random, Lists::With)),
        ("list_writes", |random| writings_with(random, Lists::With)),
        ("list_runs", |random| runs_with(random, Lists::With)),
        ("shorts", shorts),
        ("list_shorts", |random| shorts_with(random, Lists::With)),
        ("groups", |random| checks_with(random, Lists::Grouped(2))),
        ("group_texts", |random| texts_with(random, Lists::Grouped(2))),
        ("group_moves", |random| moves_with(random, Lists::Grouped(2))),
        ("group_writes", |random| writings_with(random, Lists::Grouped(2))),
        ("group_runs", |random| runs_with(random, Lists::Grouped(2))),
        ("group_shorts", |random| shorts_with(random, Lists::Grouped(2))),
    ];
    for (name, make) in files {
        make(&mut Random::new(seed)).write(folder, name);
    }
}
