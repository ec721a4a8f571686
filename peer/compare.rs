//! Our library against the ordinary Rust implementation, on fresh cases:
//! `compare COUNT [SEED]`.
//!
//! First all cases known by hand, then COUNT random ones, long and short, valid
//! and damaged, of traces of either form, every other with a list of registers, some with
//! failed exchanges, with rooms of every size, each filled with random words before. Both get the same texts
//! and rooms; everything that comes back is compared: answers, counts, memories, every
//! word of every room, the offending line; and the same for a reading alone, for
//! writing in either form, for reading back, for moves between the forms, for
//! shortenings, and for lists alone; and the run: its beginning, how many steps it has,
//! and each of them. The first
//! difference is printed whole, and ends the program with status 1.

#[allow(dead_code)]
mod cases;
#[allow(dead_code)]
mod counters;
#[allow(dead_code)]
mod exchanges;
#[allow(dead_code)]
mod forms;
#[allow(dead_code)]
mod generate;
#[allow(dead_code)]
mod groups;
#[allow(dead_code)]
mod lists;
#[allow(dead_code)]
mod ours;
#[allow(dead_code)]
mod peer;
mod random;
mod rules;
mod shorts;
#[allow(dead_code)]
mod steps;
mod texts;
#[allow(dead_code)]
mod zeros;

use cases::Case;
use forms::{KnownWriting, Move};
use generate::{Lists, Short};
use lists::KnownList;
use peer::{form_of, Answer, Checked, Entry, Form, ListFor, Memory, Word, CELLS, EVENT_WORDS, MAX_EVENTS, MAX_MATCHING};
use random::Random;
use shorts::KnownShort;
use std::collections::BTreeMap;
use std::fmt::Debug;

const ROOM_NAMES: [&str; 2] = ["source room", "target room"];

/// What is compared: texts and rooms as they were before the call.
struct Given {
    case: Case,
    rooms: [Vec<Word>; 2],
    entries: Vec<Entry>,
}

/// A difference, told whole.
struct Difference(String);

type Same = Result<(), Difference>;

fn same<T: PartialEq + Debug>(what: &str, ours: &T, peer: &T) -> Same {
    if ours == peer {
        return Ok(());
    }
    Err(Difference(format!("{what}\n  ours {ours:?}\n  peer {peer:?}")))
}

/// A room after a call: as the peer left it; as it was before, from `stored` on.
fn same_room<T: Copy + PartialEq + Debug>(what: &str, before: &[T], ours: &[T], peer: &[T], stored: usize) -> Same {
    if let Some(at) = (0..ours.len()).find(|&at| ours[at] != peer[at]) {
        let [before, ours, peer] = [before, ours, peer].map(|room| room[at]);
        return Err(Difference(format!("{what}, word {at}: before {before:?}, ours {ours:?}, peer {peer:?}")));
    }
    same(&format!("{what}, from word {stored} on"), &&ours[stored..], &&before[stored..])
}

/// A value of 32 bits or of 64.
fn random_value(random: &mut Random) -> Word {
    match random.below(2) {
        0 => Word::from(random.next() as u32),
        _ => random.next(),
    }
}

fn random_words(random: &mut Random, words: usize) -> Vec<Word> {
    (0..words).map(|_| random.next()).collect()
}

/// How many words are lent where `fitting` would hold what is read: mostly that
/// and a few more, sometimes any number.
fn room_words(random: &mut Random, fitting: usize) -> usize {
    match random.below(16) {
        0 => random.below(3 * EVENT_WORDS),
        1 => random.below(fitting + 1),
        2 => random.below(MAX_EVENTS * EVENT_WORDS + 100),
        3 => fitting.saturating_sub(1),
        _ => fitting + random.below(EVENT_WORDS),
    }
}

fn lend(random: &mut Random, case: Case) -> Given {
    let [source, target, entries] = case.rooms;
    let rooms = [source * EVENT_WORDS, target * EVENT_WORDS].map(|fitting| {
        let words = room_words(random, fitting);
        random_words(random, words)
    });
    let entries = (0..room_words(random, entries)).map(|_| random.next() as Entry).collect();
    Given { case, rooms, entries }
}

/// The answers that were given: by whom, number, side.
#[derive(Default)]
struct Tally {
    counts: BTreeMap<(&'static str, u32, u32), usize>,
    lines: usize,
    read_back: usize,
    moved_back: usize,
    counted: usize,
    followed: usize,
    shortened: usize,
}

/// One of two, by a form.
fn by_form<T>(form: Form, one: T, two: T) -> T {
    match form {
        Form::One => one,
        Form::Two => two,
    }
}

/// What a call is counted as, without a list or with one.
fn by_list(list: Option<&ListFor>, plain: &'static str, listed: &'static str) -> &'static str {
    if list.is_some() { listed } else { plain }
}

impl Tally {
    fn add(&mut self, who: &'static str, answer: Answer) {
        *self.counts.entry((who, answer.number, answer.side)).or_default() += 1;
    }
}

/// A whole check, its rooms and its line.
fn compare_check(given: &Given, tally: &mut Tally) -> Same {
    let Given { case, rooms, entries } = given;
    let [mut ours_rooms, mut peer_rooms] = [rooms.clone(), rooms.clone()];
    let [mut ours_entries, mut peer_entries] = [entries.clone(), entries.clone()];
    let ours = ours::check(case.list(), case.texts(), ours_rooms.each_mut().map(Vec::as_mut_slice), &mut ours_entries);
    let [source_room, target_room] = &mut peer_rooms;
    let peer = peer::check(case.list(), &case.source, &case.target, &case.matching, source_room, target_room, &mut peer_entries);
    same("check: answer", &ours.answer, &peer.answer)?;
    same("check: all that is handed back", &ours, &peer)?;
    let stored = [ours.source_events, ours.target_events].map(|events| events * EVENT_WORDS);
    for room in 0..2 {
        let what = format!("check: {}", ROOM_NAMES[room]);
        same_room(&what, &rooms[room], &ours_rooms[room], &peer_rooms[room], stored[room])?;
    }
    same_room("check: entry room", entries, &ours_entries, &peer_entries, ours.entries)?;
    let coded = [&case.source, &case.target].map(|text| form_of(text) == Form::Two);
    let who = match (coded, &case.list) {
        ([false, false], None) => "check 1 1",
        ([false, true], None) => "check 1 2",
        ([true, false], None) => "check 2 1",
        ([true, true], None) => "check 2 2",
        (_, Some(_)) => "check listed",
    };
    tally.add(who, ours.answer);
    tally.counted += compare_start(given, &peer, &peer_rooms, &peer_entries)?;
    compare_line(case, ours.answer, tally)
}

/// The beginning of a run, beside a check with its rooms: the same numbers and rooms,
/// how many steps there are, and the tags of the events that stand, if it has begun.
/// Hands back the number of steps.
fn compare_start(given: &Given, peer: &Checked, rooms: &[Vec<Word>; 2], entries: &[Entry]) -> Result<usize, Difference> {
    let mut ours_rooms = given.rooms.clone();
    let mut ours_entries = given.entries.clone();
    let before: [usize; MAX_EVENTS] = std::array::from_fn(|at| at * 7 + 3);
    let mut tags = before;
    let lent = ours_rooms.each_mut().map(Vec::as_mut_slice);
    let (result, run) = ours::start_to(given.case.list(), given.case.texts(), lent, &mut ours_entries, &mut tags);
    let kept: Vec<usize> = entries[..peer.entries].iter().map(|&entry| entry as usize).collect();
    let (cost, begun, stand) = match peer.answer.number {
        0 => (steps::cost(&kept, peer.target_events), 1, peer.source_events),
        _ => (0, 0, 0),
    };
    let [number, side, place] = [peer.answer.number, peer.answer.side, peer.answer.place].map(|number| number as usize);
    same("start: its numbers", &result, &[number, side, place, peer.source_events, peer.target_events, peer.entries, cost])?;
    same("start: the run", &run, &[begun, stand])?;
    same("start: the tags", &&tags[..stand], &&(0..stand).collect::<Vec<_>>()[..])?;
    same("start: the other tags", &&tags[stand..], &&before[stand..])?;
    same("start: the rooms", &ours_rooms, rooms)?;
    same("start: the entry room", &ours_entries.as_slice(), &entries)?;
    Ok(cost)
}

/// The offending line, as the same part of the same text.
fn compare_line(case: &Case, answer: Answer, tally: &mut Tally) -> Same {
    let text = if answer.side == 2 { &case.target } else { &case.source };
    let (from, to) = ours::offending_part(&case.source, &case.target, answer);
    let line = peer::offending_line(&case.source, &case.target, answer);
    let Some(part) = text.get(from..to) else {
        return Err(Difference(format!("offending line: {from} to {to} is no part of {} bytes", text.len())));
    };
    same("offending line", &part, &line)?;
    if !line.is_empty() {
        same("offending line: its start", &part.as_ptr(), &line.as_ptr())?;
        tally.lines += 1;
    }
    Ok(())
}

/// Any three numbers get a part of a text.
fn try_any_answer(random: &mut Random, case: &Case) -> Same {
    let [number, side] = [24, 6].map(|limit| random.below(limit) as u32);
    let place = match random.below(8) {
        0 => random.next() as u32,
        _ => random.below(30) as u32,
    };
    let text = if side == 2 { &case.target } else { &case.source };
    let (from, to) = ours::offending_part(&case.source, &case.target, Answer { number, side, place });
    match text.get(from..to) {
        Some(part) if !part.contains(&b'\n') => Ok(()),
        _ => Err(Difference(format!("line of {number} {side} {place}: {from} to {to}"))),
    }
}

/// A trace read alone. Hands back its words and memory if it is lawful.
fn compare_trace(list: Option<&ListFor>, text: &[u8], room: &[Word], tally: &mut Tally) -> Result<Option<(Memory, Vec<Word>)>, Difference> {
    let [mut ours_room, mut peer_room] = [room.to_vec(), room.to_vec()];
    let ours = ours::read_trace(list, text, &mut ours_room);
    let peer = peer::read_trace(list, text, &mut peer_room);
    same("reading a trace", &ours, &peer)?;
    same("form of a trace", &ours::trace_form(text), &by_form(form_of(text), 1, 2))?;
    let stored = ours.events * EVENT_WORDS;
    same_room("reading a trace: room", room, &ours_room, &peer_room, stored)?;
    tally.add(by_list(list, by_form(form_of(text), "trace 1", "trace 2"), "trace listed"), ours.answer);
    ours_room.truncate(stored);
    Ok((ours.answer.number == 0).then_some((ours.memory, ours_room)))
}

fn compare_matching(text: &[u8], room: &[Entry], tally: &mut Tally) -> Same {
    let [mut ours_room, mut peer_room] = [room.to_vec(), room.to_vec()];
    let ours = ours::read_matching(text, &mut ours_room);
    let peer = peer::read_matching(text, &mut peer_room);
    same("reading a matching", &ours, &peer)?;
    same_room("reading a matching: room", room, &ours_room, &peer_room, ours.entries)?;
    tally.add("matching", ours.answer);
    Ok(())
}

/// A call that writes into so many bytes: its answer, and the text if it is done.
fn compare_bytes(
    random: &mut Random,
    what: &str,
    bytes: usize,
    ours: impl Fn(&mut [u8]) -> Answer,
    peer: impl Fn(&mut [u8]) -> Answer,
) -> Result<(Answer, Option<Vec<u8>>), Difference> {
    let before: Vec<u8> = (0..bytes).map(|_| random.next() as u8).collect();
    let [mut ours_out, mut peer_out] = [before.clone(), before.clone()];
    let [ours, peer] = [ours(&mut ours_out), peer(&mut peer_out)];
    same(&format!("{what}: answer"), &ours, &peer)?;
    same(&format!("{what}: bytes"), &ours_out, &peer_out)?;
    let written = if ours.number == 0 { ours.place as usize } else { 0 };
    same(&format!("{what}: the other bytes"), &&ours_out[written..], &&before[written..])?;
    ours_out.truncate(written);
    Ok((ours, (ours.number == 0).then_some(ours_out)))
}

/// A trace written into so many bytes, and read back.
fn compare_writing(
    random: &mut Random,
    list: Option<&ListFor>,
    form: Form,
    memory: &Memory,
    words: &[Word],
    bytes: usize,
    tally: &mut Tally,
) -> Same {
    let ours = |out: &mut [u8]| ours::write_trace(list, form, memory, words, out);
    let peer = |out: &mut [u8]| peer::write_trace(list, form, memory, words, out);
    let (answer, written) = compare_bytes(random, "writing", bytes, ours, peer)?;
    tally.add(by_list(list, by_form(form, "writer 1", "writer 2"), "writer listed"), answer);
    if let Some(text) = written {
        let mut room = random_words(random, words.len());
        let read = ours::read_trace(list, &text, &mut room);
        same("reading back: answer", &read.answer, &Answer { number: 0, side: 0, place: 0 })?;
        same("reading back: memory", &read.memory, memory)?;
        same("reading back: words", &room.as_slice(), &words)?;
        tally.read_back += 1;
    }
    Ok(())
}

/// A text moved to a form, and back.
fn compare_move(random: &mut Random, Move { list, to, text, bytes }: &Move, tally: &mut Tally) -> Same {
    let list = list.as_ref();
    let ours = |out: &mut [u8]| ours::move_to(list, *to, text, out);
    let peer = |out: &mut [u8]| peer::move_to(list, *to, text, out);
    let (answer, moved) = compare_bytes(random, "move", *bytes, ours, peer)?;
    tally.add(by_list(list, by_form(*to, "move to 1", "move to 2"), "move listed"), answer);
    if let Some(moved) = moved {
        let mut back = vec![0; text.len()];
        let answer = ours::move_to(list, form_of(text), &moved, &mut back);
        same("moving back: answer", &answer, &Answer { number: 0, side: 0, place: text.len() as u32 })?;
        same("moving back: bytes", &back, text)?;
        tally.moved_back += 1;
    }
    Ok(())
}

/// A text shortened: both parts, what the check says of them, and what is shortened again.
fn compare_short(random: &mut Random, Short { list, text, bytes }: &Short, tally: &mut Tally) -> Same {
    let list = list.as_ref();
    let lent = bytes.map(|bytes| (0..bytes).map(|_| random.next() as u8).collect::<Vec<u8>>());
    let [mut our_out, mut our_names] = lent.clone();
    let [mut peer_out, mut peer_names] = lent;
    let ours = ours::shorten(list, text, &mut our_out, &mut our_names);
    let peer = peer::shorten(list, text, &mut peer_out, &mut peer_names);
    same("shortening: answer", &ours, &peer)?;
    same("shortening: bytes", &our_out, &peer_out)?;
    same("shortening: matching", &our_names, &peer_names)?;
    tally.add(by_list(list, by_form(form_of(text), "shorten 1", "shorten 2"), "short listed"), ours.answer);
    if ours.answer.number == peer::number::DONE {
        let (short, names) = (&our_out[..ours.bytes], &our_names[..ours.matching_bytes]);
        let [mut source_room, mut target_room] = [(); 2].map(|()| vec![0; peer::MAX_EVENTS * peer::EVENT_WORDS]);
        let checked = ours::check(list, [text, short, names], [&mut source_room, &mut target_room], &mut vec![0; peer::MAX_EVENTS]);
        same("shortening: the check", &checked.answer, &Answer { number: 0, side: 0, place: 0 })?;
        let (mut again, mut named) = (vec![0; short.len()], vec![0; names.len() * 2]);
        let twice = ours::shorten(list, short, &mut again, &mut named);
        same("shortening twice: bytes", &twice.bytes, &short.len())?;
        same("shortening twice: text", &again.as_slice(), &short)?;
        tally.shortened += 1;
    }
    Ok(())
}

fn compare_list(list: &ListFor, tally: &mut Tally) -> Same {
    let peer = peer::read_list(list);
    same("reading a list", &ours::read_list(list), &Some(peer.clone()))?;
    tally.add("list", peer.answer);
    Ok(())
}

/// The steps of a run, asked for and applied one by one.
fn compare_run(case: &Case, tally: &mut Tally) -> Same {
    let told = |told: String| Difference(format!("run: {told}"));
    let peer = steps::run(case.list(), case.texts()).map_err(told)?;
    let ours = ours::run(case.list(), case.texts()).map_err(told)?;
    same("run: answer", &ours.answer, &peer.answer)?;
    same("run: how many steps", &ours.cost, &peer.cost)?;
    same("run: steps", &ours.steps, &peer.steps)?;
    tally.followed += ours.steps.len();
    Ok(())
}

/// The list that the writer is handed: that of the trace, or any other.
fn changed_list(random: &mut Random, list: &ListFor) -> ListFor {
    match random.below(8) {
        0 => generate::any_list(random),
        1 => generate::any_group_list(random),
        _ => list.clone(),
    }
}

/// The memory that the writer is handed: that of the trace, or another.
fn changed_memory(random: &mut Random, memory: &Memory) -> Memory {
    let mut memory = *memory;
    match random.below(8) {
        0 => memory = [0; CELLS].map(|_: Word| random_value(random)),
        1 | 2 => memory[random.below(CELLS)] = random_value(random),
        _ => {}
    }
    memory
}

/// The words that the writer is handed: those of the trace, or damaged ones.
fn changed_words(random: &mut Random, words: &[Word]) -> Vec<Word> {
    let mut words = words.to_vec();
    let at = random.below(words.len().max(1));
    match random.below(14) {
        0 if at < words.len() => words[at] = random_value(random),
        1 if at < words.len() => words[at] = random.below(12) as Word,
        2 => words.truncate(at),
        3 => words.extend((0..1 + random.below(2 * EVENT_WORDS)).map(|_| 0)),
        4 if at < words.len() => words[at] = words[at].wrapping_add(random.pick(&[1, 256, Word::from(u32::MAX), 1 << 32, Word::MAX])),
        5 if !words.is_empty() && random.once_in(20) => {
            let longer = (MAX_EVENTS - 3) * EVENT_WORDS + random.below(6 * EVENT_WORDS);
            words = words.iter().copied().cycle().take(longer).collect();
        }
        6 => words.chunks_exact_mut(EVENT_WORDS).for_each(|event| event[EVENT_WORDS - 1] = random.below(65_536) as Word),
        7 => words.chunks_exact_mut(EVENT_WORDS).for_each(|event| event[EVENT_WORDS - 1] = 0),
        8 if words.len() >= EVENT_WORDS => {
            let event = at / EVENT_WORDS * EVENT_WORDS;
            if let Some(code) = words.get_mut(event + EVENT_WORDS - 1) {
                *code = random.pick(&[0, 1, 65_535, 65_536, 65_537, 131_072, 1 << 32, Word::MAX]);
            }
        }
        _ => {}
    }
    words
}

fn try_writing(random: &mut Random, list: Option<&ListFor>, memory: &Memory, words: &[Word], tally: &mut Tally) -> Same {
    let list = list.map(|list| changed_list(random, list));
    let list = list.as_ref();
    let memory = changed_memory(random, memory);
    let words = changed_words(random, words);
    let form = random.pick(&[Form::One, Form::Two]);
    let needed = generate::bytes_needed(peer::write_trace(list, form, &memory, &words, &mut []));
    let bytes = generate::bytes_for(random, needed);
    compare_writing(random, list, form, &memory, &words, bytes, tally)
}

fn compare(random: &mut Random, given: &Given, tally: &mut Tally) -> Same {
    let list = given.case.list();
    compare_check(given, tally)?;
    compare_run(&given.case, tally)?;
    try_any_answer(random, &given.case)?;
    for (text, room) in [(&given.case.source, &given.rooms[0]), (&given.case.target, &given.rooms[1])] {
        if let Some((memory, words)) = compare_trace(list, text, room, tally)? {
            try_writing(random, list, &memory, &words, tally)?;
        }
        let handed = generate::move_of(random, list, text);
        compare_move(random, &handed, tally)?;
        let handed = generate::short_of(random, list, text);
        compare_short(random, &handed, tally)?;
    }
    if let Some(list) = list {
        compare_list(list, tally)?;
    }
    compare_matching(&given.case.matching, &given.entries, tally)
}

/// A lawful triple of up to 800 events, some of them with damaged bytes.
fn long_case(random: &mut Random, lists: Lists) -> Case {
    let events = match random.below(4) {
        0 => MAX_EVENTS - random.below(3),
        _ => 20 + random.below(MAX_EVENTS - 20),
    };
    let mut case = generate::lawful_case(random, lists, events);
    for text in [&mut case.source, &mut case.target] {
        if random.once_in(2) {
            generate::add_codes(random, text);
        }
    }
    let text = random.pick(&[0, 1, 2]);
    let text = [&mut case.source, &mut case.target, &mut case.matching].into_iter().nth(text).expect("a text");
    match random.below(6) {
        0 => generate::damage(random, text),
        1 => generate::disorder(random, text),
        2 => lengthen(random, text),
        _ => {}
    }
    case
}

/// Lines said again and again, up to about the most events or the most bytes.
fn lengthen(random: &mut Random, text: &mut Vec<u8>) {
    let form = form_of(text);
    let line: &[u8] = if text.starts_with(b"match") { b"gone\n" } else { by_form(form, b"lock\t0\n".as_slice(), b"lock\t0\t77\n") };
    let lines = text.iter().filter(|&&byte| byte == b'\n').count();
    let limit = random.pick(&[form.limit(), form.limit(), MAX_MATCHING]);
    let more = match random.below(2) {
        0 => (MAX_EVENTS + random.below(5)).saturating_sub(lines) * line.len(),
        _ => (limit + random.below(5)).saturating_sub(text.len() + 2),
    };
    text.extend(line.iter().copied().cycle().take(more));
}

/// Bytes that are hardly a text.
fn noise(random: &mut Random) -> Vec<u8> {
    const ALPHABET: [u8; 24] = *b"\t\n\t\n01259aceilmnorstu\0\xff ";
    let head: &[u8] = random.pick(&[b"", b"", b"trace\t1\n", b"trace\t2\n"]);
    head.iter().copied().chain((0..random.below(60)).map(|_| random.pick(&ALPHABET))).collect()
}

fn random_case(random: &mut Random, lists: Lists) -> Case {
    match random.below(64) {
        0 => long_case(random, lists),
        1 => Case { source: noise(random), ..generate::mixed_case(random, lists) },
        2 => Case { target: noise(random), ..generate::mixed_case(random, lists) },
        3 => Case { matching: noise(random), ..generate::mixed_case(random, lists) },
        _ => generate::mixed_case(random, lists),
    }
}

/// The same, every other with failed exchanges.
fn exchanged_case(random: &mut Random, lists: Lists) -> Case {
    let mut case = random_case(random, lists);
    if random.once_in(2) {
        generate::fail_exchanges(random, &mut case);
    }
    case
}

/// All of a case in which the two differ.
fn tell(given: &Given, difference: &Difference) {
    println!("DIFFERENCE in {}", difference.0);
    if let Some(list) = given.case.list() {
        println!("list for group {}, {} bytes:\n{}", list.group, list.text.len(), list.text.escape_ascii());
    }
    for (name, text) in ["source", "target", "matching"].iter().zip(given.case.texts()) {
        println!("{name}, {} bytes:\n{}", text.len(), text.escape_ascii());
    }
    for (name, room) in ROOM_NAMES.iter().zip(&given.rooms) {
        println!("{name}, {} words before: {room:?}", room.len());
    }
    println!("entry room, {} entries before: {:?}", given.entries.len(), given.entries);
}

fn print_tally(tally: &Tally) {
    for ((who, number, side), count) in &tally.counts {
        println!("{who:13} answer {number:2} side {side}: {count:8}");
    }
    let Tally { lines, read_back, moved_back, counted, followed, shortened, .. } = tally;
    println!("{lines} offending lines, {read_back} texts read back, {moved_back} moved back, {counted} steps counted, {followed} followed, {shortened} shortened");
}

/// The moves, the writings, the shortenings and the lists that are known by hand.
fn compare_known(random: &mut Random, tally: &mut Tally) -> Same {
    let told = |name: &str, same: Same| same.map_err(|Difference(told)| Difference(format!("{name}: {told}")));
    for known in [forms::moves(), counters::moves(), zeros::moves(), exchanges::moves(), lists::moves(), groups::moves()].concat() {
        told(&known.name, compare_move(random, &known.handed, tally))?;
    }
    for KnownWriting { name, handed, .. } in [forms::writings(), counters::writings(), zeros::writings(), exchanges::writings(), lists::writings(), groups::writings()].concat() {
        let (memory, words) = handed.read();
        told(&name, compare_writing(random, handed.list.as_ref(), handed.form, &memory, &words, handed.bytes, tally))?;
    }
    for KnownShort { name, list, text, short, matching } in shorts::known() {
        for bytes in [[short.len(), matching.len()], [short.len() - 1, matching.len()], [short.len(), matching.len() - 1]] {
            let handed = Short { list: list.clone(), text: text.clone(), bytes };
            told(&name, compare_short(random, &handed, tally))?;
        }
    }
    for KnownList { name, list, .. } in [lists::texts(), groups::texts()].concat() {
        told(&name, compare_list(&list, tally))?;
    }
    Ok(())
}

fn main() {
    let mut arguments = std::env::args().skip(1).map(|word| word.parse::<u64>().expect("a number"));
    let count = arguments.next().expect("compare COUNT [SEED]");
    let seed = arguments.next().unwrap_or(1);
    let known = [cases::all(), forms::checks(), counters::checks(), zeros::checks(), exchanges::checks(), lists::checks(), lists::examples(), groups::checks(), groups::examples()].concat();
    let known: Vec<Case> = known.into_iter().map(|known| known.case).collect();
    let by_hand = known.len();
    println!("seed {seed}, {count} cases, after {by_hand} known by hand");
    let mut seeds = Random::new(seed);
    let mut tally = Tally::default();
    if let Err(difference) = compare_known(&mut seeds, &mut tally) {
        println!("DIFFERENCE in {}", difference.0);
        std::process::exit(1);
    }
    let known = known.into_iter().map(Some);
    for (index, known) in known.chain((0..count).map(|_| None)).enumerate() {
        let mut random = Random::new(seeds.next());
        let lists = [Lists::Without, Lists::With, Lists::Without, Lists::Grouped(1 + index as Word / 4 % 2)][index % 4];
        let case = known.unwrap_or_else(|| exchanged_case(&mut random, lists));
        let given = lend(&mut random, case);
        if let Err(difference) = compare(&mut random, &given, &mut tally) {
            println!("case {index}");
            tell(&given, &difference);
            std::process::exit(1);
        }
    }
    print_tally(&tally);
    println!("no difference");
}
