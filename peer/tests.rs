//! Tests of the checker: the runs of the requirement and the limits, each with
//! an answer worked out by hand, in both forms; rooms, counts and memories; the
//! writer; moves; and random triples against the slow checker.

mod cases;
mod counters;
mod exchanges;
mod forms;
#[allow(dead_code)]
mod generate;
mod groups;
mod lists;
mod naive;
mod peer;
#[allow(dead_code)]
mod random;
mod rules;
mod shorts;
mod slow;
mod texts;
mod zeros;

use cases::{Case, Triple, DONE};
use forms::{KnownMove, KnownWriting};
use generate::Lists;
use lists::KnownList;
use peer::{form_of, number, side, Answer, Checked, Entry, Form, ListFor, Memory, Word, CELLS, EVENT_WORDS, MAX_EVENTS};
use random::Random;
use shorts::KnownShort;
use std::fmt::Debug;

/// What the rooms hold before a call: no lawful word of an event or entry.
const MARKER: Word = 0xdead_beef_dead_beef;
const ENTRY_MARKER: Entry = 0xdead_beef;
/// Words beyond the last whole event of a room. They make room for nothing.
const SPARE_WORDS: usize = EVENT_WORDS - 1;
/// What bytes hold before a call.
const GUARD: u8 = 0xaa;
const ZERO: Memory = [0; CELLS];
const FORMS: [Form; 2] = [Form::One, Form::Two];
/// The answers are numbered from 0.
const ANSWERS: usize = 23;
/// How many lawful changes of longer traces are tried.
const LAWFUL: usize = 6_000;

fn triple(answer: Answer) -> Triple {
    (answer.number, answer.side, answer.place)
}

struct Rooms {
    source: Vec<Word>,
    target: Vec<Word>,
    entries: Vec<Entry>,
}

fn check(case: &Case) -> (Checked, Rooms) {
    let words = |events: usize| vec![MARKER; events * EVENT_WORDS + SPARE_WORDS];
    let mut rooms =
        Rooms { source: words(case.rooms[0]), target: words(case.rooms[1]), entries: vec![ENTRY_MARKER; case.rooms[2]] };
    let checked =
        peer::check(case.list(), &case.source, &case.target, &case.matching, &mut rooms.source, &mut rooms.target, &mut rooms.entries);
    (checked, rooms)
}

fn assert_front<T: Copy + PartialEq + Debug>(room: &[T], front: &[T], marker: T, what: &str) {
    assert_eq!(&room[..front.len()], front, "{what}: front of the room");
    assert!(room[front.len()..].iter().all(|&word| word == marker), "{what}: rest of the room");
}

/// The answer to a check, and whether the slow checker gives it too.
struct Compared {
    answer: Triple,
    is_slow: bool,
}

/// Everything that a check leaves behind, against the slow checker if it knows
/// such texts; and the readers alone.
fn compare(case: &Case, what: &str) -> Compared {
    let (checked, rooms) = check(case);
    let slow = slow::check(case.list(), case.texts(), case.rooms);
    let is_slow = slow.is_some();
    if let Some(outcome) = slow {
        compare_slow(case, &checked, &rooms, outcome, what);
    }
    compare_readings(case, what);
    Compared { answer: triple(checked.answer), is_slow }
}

fn compare_slow(case: &Case, checked: &Checked, rooms: &Rooms, outcome: slow::Outcome, what: &str) {
    assert_eq!(triple(checked.answer), outcome.answer, "{what}: answer");
    let line = peer::offending_line(&case.source, &case.target, checked.answer);
    assert_eq!(line, outcome.line, "{what}: offending line");
    let (source, target, entries) = match outcome.stored {
        Some((source, target, entries)) => {
            assert_eq!((checked.source_memory, checked.target_memory), (source.start, target.start), "{what}: memories");
            (source.words, target.words, entries)
        }
        None => {
            assert_eq!((checked.source_memory, checked.target_memory), (ZERO, ZERO), "{what}: memories");
            (vec![], vec![], vec![])
        }
    };
    let counts = (checked.source_events, checked.target_events, checked.entries);
    assert_eq!(counts, (source.len() / EVENT_WORDS, target.len() / EVENT_WORDS, entries.len()), "{what}: counts");
    assert_front(&rooms.source, &source, MARKER, what);
    assert_front(&rooms.target, &target, MARKER, what);
    assert_front(&rooms.entries, &entries, ENTRY_MARKER, what);
}

/// The readers alone, against the check of which they are parts.
fn compare_readings(case: &Case, what: &str) {
    for (text, capacity) in [(&case.source, case.rooms[0]), (&case.target, case.rooms[1])] {
        let mut room = vec![MARKER; capacity * EVENT_WORDS + SPARE_WORDS];
        let read = peer::read_trace(case.list(), text, &mut room);
        let alone =
            Case { list: case.list.clone(), source: text.clone(), target: cases::trace(""), matching: cases::matching(""), rooms: [capacity, 0, 0] };
        let (checked, rooms) = check(&alone);
        // A lawful trace leaves the check to go on to 7 or 8.
        let lawful = matches!(triple(checked.answer), (number::DONE | number::STARTS_DIFFER | number::ENTRY_COUNT, _, _));
        let expected = if lawful { (0, 0, 0) } else { triple(checked.answer) };
        assert_eq!(triple(read.answer), expected, "{what}: a trace alone");
        assert_eq!((read.events, read.memory), (checked.source_events, checked.source_memory), "{what}: a trace alone");
        assert_eq!(room, rooms.source, "{what}: room of a trace alone");
        if lawful {
            write_back(case.list(), &read, &room, text, what);
        }
        compare_moves(case.list(), text, what);
    }
    let mut room = vec![ENTRY_MARKER; case.rooms[2]];
    let read = peer::read_matching(&case.matching, &mut room);
    let alone = Case { list: None, source: cases::trace(""), target: cases::trace(""), matching: case.matching.clone(), rooms: [0, 0, case.rooms[2]] };
    let (checked, rooms) = check(&alone);
    let judged = [number::ENTRY_COUNT, number::BAD_TARGET_NUMBER].contains(&checked.answer.number);
    let expected = if judged { (0, 0, 0) } else { triple(checked.answer) };
    assert_eq!(triple(read.answer), expected, "{what}: a matching alone");
    assert_eq!(read.entries, checked.entries, "{what}: a matching alone");
    assert_eq!(room, rooms.entries, "{what}: room of a matching alone");
}

/// What is lent and what comes back of a call that writes a text: the bytes that
/// it says stand at the front, and nothing else is changed.
fn written(what: &str, bytes: usize, write: impl Fn(&mut [u8]) -> Answer) -> (Triple, Vec<u8>) {
    let mut out = vec![GUARD; bytes];
    let answer = triple(write(&mut out));
    let count = if answer.0 == number::DONE { answer.2 as usize } else { 0 };
    assert!(out[count..].iter().all(|&byte| byte == GUARD), "{what}: beyond the text");
    out.truncate(count);
    (answer, out)
}

/// The writer gives back the very text that was read.
fn write_back(list: Option<&ListFor>, read: &peer::TraceRead, room: &[Word], text: &[u8], what: &str) {
    let part = &room[..read.events * EVENT_WORDS];
    let write = |bytes| written(what, bytes, |out| peer::write_trace(list, form_of(text), &read.memory, part, out));
    let size = text.len() as u32;
    for spare in [0, 3] {
        assert_eq!(write(text.len() + spare), ((0, 0, size), text.to_vec()), "{what}: written back");
    }
    assert_eq!(write(text.len() - 1).0, (number::ROOM_TOO_SHORT, side::NONE, size), "{what}: writer, short room");
}

fn move_to(list: Option<&ListFor>, to: Form, text: &[u8], bytes: usize, what: &str) -> (Triple, Vec<u8>) {
    let moved = written(what, bytes, |out| peer::move_to(list, to, text, out));
    if let Some(slow) = slow::moved(list, to == Form::Two, text, bytes) {
        assert_eq!(moved, slow, "{what}: move to {to:?}");
    }
    moved
}

/// The moves of a text against the slow ones, and back again.
fn compare_moves(list: Option<&ListFor>, text: &[u8], what: &str) {
    for to in FORMS {
        let (answer, moved) = move_to(list, to, text, Form::Two.limit(), what);
        if answer.0 == number::DONE {
            assert_eq!(move_to(list, form_of(text), &moved, text.len(), what).1, text, "{what}: there and back");
            move_to(list, to, text, moved.len() - 1, what);
        }
    }
}

fn known_cases() -> usize {
    let known = [cases::all(), forms::checks(), counters::checks(), zeros::checks(), exchanges::checks(), lists::checks(), lists::examples(), groups::checks(), groups::examples()].concat();
    for known in &known {
        assert_eq!(compare(&known.case, &known.name).answer, known.answer, "{}: answer by hand", known.name);
    }
    known.len()
}

/// P10 as the program would print it.
fn printed_lines() {
    let known = cases::runs().into_iter().find(|known| known.name == "P10").expect("P10 is among the runs");
    let (checked, _) = check(&known.case);
    let Answer { number, side, place } = checked.answer;
    let line = peer::offending_line(&known.case.source, &known.case.target, checked.answer);
    let printed = format!("refused\t{number}\t{side}\t{place}\n{}\n", String::from_utf8_lossy(line));
    assert_eq!(printed, "refused\t12\t1\t2\nunlock\t0\n");
}

/// The offending line lies within the text of its side, even where empty.
fn parts_of_texts() {
    let (source, target) = (b"trace\t1\n\n".as_slice(), b"trace\t1\nlock\t0\n".as_slice());
    let line = |number, side, place| peer::offending_line(source, target, Answer { number, side, place });
    assert!(std::ptr::eq(line(15, 2, 1), &target[8..14]));
    assert!(line(2, 1, 2).is_empty());
    assert!(line(9, 3, 1).is_empty() && line(7, 2, 0).is_empty() && line(17, 1, 5).is_empty());
    assert!(line(19, 1, 1).is_empty() && line(20, 2, 1).is_empty() && line(21, 2, 2).is_empty());
    assert!((0..30).all(|number| line(number, side::LIST, 2).is_empty()));
    // Answers that no check of these texts gives are no danger.
    assert!(line(2, 1, 0).is_empty() && line(2, 2, 99).is_empty() && line(16, 2, 99).is_empty());
}

fn known_moves() -> usize {
    let moves = [forms::moves(), counters::moves(), zeros::moves(), exchanges::moves(), lists::moves(), groups::moves()].concat();
    for KnownMove { name, handed, answer, moved } in &moves {
        let what = format!("move: {name}");
        assert_eq!(move_to(handed.list.as_ref(), handed.to, &handed.text, handed.bytes, &what), (*answer, moved.clone()), "{what}");
    }
    moves.len()
}

/// The writings that are known by hand; what is written is read back.
fn known_writings() -> usize {
    let writings = [forms::writings(), counters::writings(), zeros::writings(), exchanges::writings(), lists::writings(), groups::writings()].concat();
    for KnownWriting { name, handed, answer: by_hand } in &writings {
        let what = format!("writing: {name}");
        let (memory, words) = handed.read();
        let (answer, text) = written(&what, handed.bytes, |out| peer::write_trace(handed.list.as_ref(), handed.form, &memory, &words, out));
        assert_eq!(answer, *by_hand, "{what}");
        if answer.0 == number::DONE {
            let mut room = vec![MARKER; words.len()];
            let read = peer::read_trace(handed.list.as_ref(), &text, &mut room);
            assert_eq!((triple(read.answer), read.memory, room), ((0, 0, 0), memory, words), "{what}: read back");
            assert_eq!(form_of(&text), handed.form, "{what}: form");
        }
    }
    writings.len()
}

/// The refusals of the writer, with words that no reader makes.
fn writer_cases() -> usize {
    let lock = [8, 0, 0, 0, 0, 0];
    const LAST_32: Word = u32::MAX as Word;
    let bad: &[[Word; 6]] = &[
        [0, 0, 0, 0, 0, 0], [12, 0, 1, 0, 0, 0], [Word::MAX, 0, 0, 0, 0, 0], [(1 << 32) + 8, 0, 0, 0, 0, 0], [257, 0, 0, 0, 0, 0],
        [1, 0, 0, 0, 0, 0], [1, 0, 5, 0, 0, 0], [1, 0, 8, 0, 0, 0], [1, 256, 6, 0, 0, 0], [1, 0, 6, 0, 1, 0], [1, 0, 6, 0, 0, 65_536],
        [2, 0, 1, 0, 0, 0], [2, 0, 6, 0, 0, 0], [2, 256, 0, 0, 0, 0], [2, 0, 0, 0, 7, 0], [2, 0, 256, 0, 0, 0],
        [3, 0, 0, 0, 0, 0], [3, 0, 3, 0, 0, 0], [3, 0, 4, 0, 0, 0], [3, 0, 1, 0, 1, 0], [3, 0, 257, 0, 0, 0],
        [4, 0, 2, 0, 0, 0], [4, 0, 4, 0, 0, 0], [4, 0, 1, 0, 1, 0], [5, 0, 0, 0, 0, 0], [5, 0, 6, 0, 0, 0], [5, 300, 1, 0, 0, 0],
        [5, 0, 1, 0, 0, 99_999], [6, 0, 7, 0, 0, 0], [6, 0, LAST_32, 0, 0, 0], [6, 0, 1, 0, LAST_32 + 1, 0], [6, 0, 1, LAST_32 + 1, 0, 0], [6, 0, 1, Word::MAX, 1, 0], [7, 0, 1, 0, 0, 0], [7, 1, 2, 0, 0, 0],
        [7, 0, 2, 1, 0, 0], [7, 0, 2, 0, 1, 0], [7, 0, 0, 0, 0, 0], [8, 256, 0, 0, 0, 0], [8, 0, 1, 0, 0, 0], [8, 0, 0, 1, 0, 0],
        [9, 0, 0, 0, 1, 0], [9, 0, 0, 0, 0, Word::MAX], [9, 0, 5, 0, 0, 0],
        [10, 0, 0, 0, 0, 0], [10, 0, 6, 0, 0, 0], [10, 256, 1, 0, 0, 0], [10, 0, 1, 0, 0, 65_536], [2, 1 << 32, 0, 0, 0, 0], [8, 0, 1 << 32, 0, 0, 0],
        [11, 0, 0, 0, 0, 0], [11, 0, 3, 0, 0, 0], [11, 0, 4, 0, 0, 0], [11, 0, 6, 0, 0, 0], [11, 0, 1, 0, 1, 0], [11, 256, 1, 0, 0, 0],
    ];
    let write_in = |form, memory: &Memory, room: &[Word]| written("writer", 100, |out| peer::write_trace(None, form, memory, room, out)).0;
    let write = |memory: &Memory, room: &[Word]| write_in(Form::One, memory, room);
    for words in bad {
        for form in FORMS {
            assert_eq!(write_in(form, &ZERO, words), (number::BAD_FIELDS, 0, 1), "{words:?}");
            assert_eq!(write_in(form, &ZERO, &[lock, *words, lock].concat()), (number::BAD_FIELDS, 0, 2), "{words:?}");
        }
    }
    for cut in 1..EVENT_WORDS {
        assert_eq!(write(&ZERO, &lock[..cut]), (number::BAD_FIELDS, 0, 1));
        assert_eq!(write(&ZERO, &[lock.as_slice(), &lock[..cut]].concat()), (number::BAD_FIELDS, 0, 2));
    }
    let stale = [1, 1, 6, 9, 0, 0];
    let mixed = [3, 1, 1, 0, 0, 0];
    assert_eq!(write(&ZERO, &stale), (number::NOT_LATEST, 0, 1));
    assert_eq!(write(&ZERO, &[[2, 1, 0, 0, 0, 0], mixed].concat()), (number::MIXED_USE, 0, 2));
    assert_eq!(write(&ZERO, &[stale, [0; 6]].concat()), (number::BAD_FIELDS, 0, 2), "18 comes before 6");
    assert_eq!(write(&[9; CELLS], &stale).0, number::ROOM_TOO_SHORT, "256 init lines do not fit");
    assert_eq!(write(&ZERO, &[]), (0, 0, 8));
    let many = lock.repeat(MAX_EVENTS);
    assert_eq!(write(&ZERO, &many), (number::ROOM_TOO_SHORT, 0, 8 + 7 * 800));
    let too_many = (number::TOO_MANY, 0, 801);
    assert_eq!(write(&ZERO, &[many.as_slice(), &[0]].concat()), too_many, "cut short, yet the 801st event");
    assert_eq!(write(&ZERO, &[0; 6 * 900]), too_many, "3 comes before 18");
    bad.len()
}

/// What a shortening leaves in parts of so many bytes, which a refusal leaves as they were.
fn shorten(list: Option<&ListFor>, text: &[u8], bytes: [usize; 2], what: &str) -> (Triple, [Vec<u8>; 2]) {
    let lent = bytes.map(|bytes| vec![0xa5; bytes]);
    let [mut out, mut names] = lent.clone();
    let made = peer::shorten(list, text, &mut out, &mut names);
    assert!(out[made.bytes..] == lent[0][made.bytes..] && names[made.matching_bytes..] == lent[1][made.matching_bytes..], "{what}: other bytes");
    (triple(made.answer), [out[..made.bytes].to_vec(), names[..made.matching_bytes].to_vec()])
}

/// The shortenings that are known by hand: into enough bytes, and into one too few.
fn known_shorts() -> usize {
    let known = shorts::known();
    for KnownShort { name, list, text, short, matching } in &known {
        let (what, list) = (format!("shortening: {name}"), list.as_ref());
        let needed = [short.len(), matching.len()];
        let refused = |side, bytes: usize| ((number::ROOM_TOO_SHORT, side, bytes as u32), [vec![], vec![]]);
        assert_eq!(shorten(list, text, needed, &what), (DONE, [short.clone(), matching.clone()]), "{what}");
        assert_eq!(shorten(list, text, [needed[0] - 1, 0], &what), refused(side::TARGET, needed[0]), "{what}: 17");
        assert_eq!(shorten(list, text, [needed[0], needed[1] - 1], &what), refused(side::MATCHING, needed[1]), "{what}: 17");
        let again = shorten(list, short, needed, &what);
        assert_eq!((again.0, &again.1[0]), (DONE, short), "{what}: again");
        let checked = slow::check(list, [text, short, matching], [MAX_EVENTS; 3]);
        assert!(checked.map_or(true, |checked| checked.answer == DONE), "{what}: accepted");
    }
    known.len()
}

/// The lists that are known by hand, read alone.
fn known_lists() -> usize {
    let known = [lists::texts(), groups::texts()].concat();
    for KnownList { name, list, answer, listed } in &known {
        let read = peer::read_list(list);
        assert_eq!((triple(read.answer), &read.listed), (*answer, listed), "list: {name}");
    }
    known.len()
}

/// Random triples with a list or without, every other of traces of both forms, every
/// third with failed exchanges: how many have each answer, and how many the slow
/// checker knows.
fn random_cases(seed: u64, count: usize, lists: Lists) -> ([usize; ANSWERS], usize) {
    let mut random = Random::new(seed);
    let mut answers = [0; ANSWERS];
    let mut slow = 0;
    for index in 0..count {
        let mut case = if index % 2 == 0 { generate::case(&mut random, lists) } else { generate::mixed_case(&mut random, lists) };
        if index % 3 == 0 {
            generate::fail_exchanges(&mut random, &mut case);
        }
        let compared = compare(&case, &format!("random case {index} of seed {seed}"));
        answers[compared.answer.0 as usize] += 1;
        slow += usize::from(compared.is_slow);
    }
    (answers, slow)
}

/// Runs of the rules on longer traces are accepted.
fn lawful_cases(seed: u64, count: usize, lists: Lists) {
    let mut random = Random::new(seed);
    for index in 0..count {
        let mut case = generate::lawful_case(&mut random, lists, index % 120);
        if index % 2 == 0 {
            generate::add_codes(&mut random, &mut case.source);
            generate::add_codes(&mut random, &mut case.target);
        }
        assert_eq!(compare(&case, &format!("lawful case {index} of seed {seed}")).answer, (0, 0, 0));
    }
}

/// `tests [count [seed]]`: how many random cases without a list, and as many with
/// one, from which seed.
fn main() {
    let mut arguments = std::env::args().skip(1).map(|argument| argument.parse::<u64>().expect("a number"));
    let count = arguments.next().unwrap_or(200_000) as usize;
    let seed = arguments.next().unwrap_or(1);
    println!("{} cases known by hand: ok", known_cases());
    printed_lines();
    parts_of_texts();
    println!("{} bad events for the writer, and its other answers: ok", writer_cases());
    println!("{} moves and {} writings known by hand: ok", known_moves(), known_writings());
    println!("{} lists and {} shortenings known by hand: ok", known_lists(), known_shorts());
    for (lists, with) in [(Lists::Without, ""), (Lists::With, " with a list"), (Lists::Grouped(1), " for group 1"), (Lists::Grouped(2), " for group 2")] {
        lawful_cases(seed, LAWFUL, lists);
        println!("{LAWFUL} lawful changes of up to 119 events{with}: accepted");
        let (answers, slow) = random_cases(seed, count, lists);
        println!("{count} random cases{with}, {slow} of them agree with the slow checker; by answer {answers:?}");
    }
}
